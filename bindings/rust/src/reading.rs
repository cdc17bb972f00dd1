//! N-Triples read with a dictionary.

use crate::refusal::Refusal;
use crate::sys;

/// Reads a file of RDF 1.1 N-Triples with a dictionary, the term book of document 02, into a
/// delivery: the length of the delivery, behind which its bytes are zero.
///
/// A dictionary of zeros is empty. Each text of the file that has no term in it is entered, with the
/// next number of its kind, so that files read with one dictionary share their terms; docs/STORE.md
/// has the layout. A delivery of 65,536 bytes has room for any file that is not refused by
/// [`Refusal::DeliveryFull`].
///
/// ```
/// let file = b"<p:cola> <http://www.w3.org/1999/02/22-rdf-syntax-ns#type> <p:Drink> .\n";
/// let mut dictionary = [0; 64];
/// let mut delivery = [0; 32];
/// let length = families::read_ntriples(file, &mut dictionary, &mut delivery)?;
/// let mut store = families::Store::empty(families::Capacities { statements: 8, facts: 8, kept: 8 });
/// store.deliver(&delivery[..length])?;
/// assert_eq!(store.facts[..4], [1, 16, 1, 17]);
/// # Ok::<(), families::Refusal>(())
/// ```
pub fn read_ntriples(
    file: &[u8],
    dictionary: &mut [u8],
    delivery: &mut [u8],
) -> Result<usize, Refusal> {
    let mut length = 0;
    // SAFETY: each pointer is that of a slice of the length given, apart from the others.
    let number = unsafe {
        sys::families_read_ntriples(
            file.as_ptr(),
            file.len(),
            dictionary.as_mut_ptr(),
            dictionary.len(),
            delivery.as_mut_ptr(),
            delivery.len(),
            &mut length,
        )
    };
    match number {
        0 => Ok(length as usize),
        number => Err(Refusal::of(number)),
    }
}
