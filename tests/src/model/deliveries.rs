//! Deliveries (batches of updates): questions 9 to 11, then the entries.

use super::tables;
use super::terms::*;
use super::updates::Capacities;
use super::{Model, IDLE};
use crate::store::Store;

/// "Little-endian bytes, at most 65,536."
pub const BYTES: usize = 65_536;

/// A delivery as its bytes read.
pub struct Delivery {
    pub number: u32,
    /// Whether it adds, and the triple.
    pub entries: Vec<(bool, Triple)>,
}

/// An extra field: its tag and its bytes.
type Field<'a> = (u16, &'a [u8]);

/// Sections in their order: what is withdrawn comes first, and statements before facts.
const SECTIONS: [(bool, bool); 4] = [(false, true), (false, false), (true, true), (true, false)];

/// The next bytes, if there are so many.
fn take<'a>(rest: &mut &'a [u8], length: usize) -> Option<&'a [u8]> {
    if rest.len() < length {
        return None;
    }
    let (taken, left) = rest.split_at(length);
    *rest = left;
    Some(taken)
}

/// A little-endian number of 16 bits.
fn half(rest: &mut &[u8]) -> Option<u16> {
    let bytes = take(rest, 2)?;
    Some(u16::from(bytes[0]) + 256 * u16::from(bytes[1]))
}

/// A little-endian number of 32 bits.
fn word(rest: &mut &[u8]) -> Option<u32> {
    let low = u32::from(half(rest)?);
    let high = u32::from(half(rest)?);
    Some(low + 65_536 * high)
}

/// A section: "12 bytes an entry, the three words of its triple".
fn section(rest: &mut &[u8]) -> Option<Vec<Triple>> {
    let count = half(rest)?;
    (0..count)
        .map(|_| Some([word(rest)?, word(rest)?, word(rest)?]))
        .collect()
}

/// The extra fields: "16-bit tag, 16-bit length, that many bytes".
fn fields<'a>(rest: &mut &'a [u8]) -> Option<Vec<Field<'a>>> {
    let count = half(rest)?;
    (0..count)
        .map(|_| {
            let tag = half(rest)?;
            let length = half(rest)?;
            Some((tag, take(rest, usize::from(length))?))
        })
        .collect()
}

/// 9: "whole, ending at its last byte, not too long?"
fn parts(bytes: &[u8]) -> Option<([Vec<Triple>; 4], Vec<Field<'_>>)> {
    let mut rest = bytes;
    let sections = [
        section(&mut rest)?,
        section(&mut rest)?,
        section(&mut rest)?,
        section(&mut rest)?,
    ];
    let fields = fields(&mut rest)?;
    (rest.is_empty() && bytes.len() <= BYTES).then_some((sections, fields))
}

/// Questions 9 to 11 on the bytes, in order.
pub fn read(bytes: &[u8]) -> Result<Delivery, u32> {
    let (sections, fields) = parts(bytes).ok_or(9u32)?;
    let mut entries = Vec::new();
    for ((adding, statements), triples) in SECTIONS.into_iter().zip(sections) {
        for triple in triples {
            // 10: "is each entry's property right for its section (2 to 5 for statements, others
            // for facts)?"
            if is_statement_property(triple[1]) != statements {
                return Err(10);
            }
            entries.push((adding, triple));
        }
    }
    // 11: "tag 1 at most once, of length 4?"
    let numbers: Vec<&[u8]> = fields
        .into_iter()
        .filter(|(tag, _)| *tag == 1)
        .map(|(_, bytes)| bytes)
        .collect();
    match numbers[..] {
        // "delivery number (0 when absent)".
        [] => Ok(Delivery { number: 0, entries }),
        [mut field] if field.len() == 4 => Ok(Delivery {
            number: word(&mut field).ok_or(11u32)?,
            entries,
        }),
        _ => Err(11),
    }
}

/// "The result is delivery number (0 when absent) and tallies": applied, idle, refused.
pub fn result(number: u32, answers: &[u32]) -> [u32; 4] {
    let tally = |wanted: fn(u32) -> bool| answers.iter().filter(|a| wanted(**a)).count() as u32;
    let applied = tally(|a| a == 0);
    let idle = tally(|a| a == IDLE);
    let refused = tally(|a| a != 0 && a != IDLE);
    [number, applied, idle, refused]
}

impl Model {
    /// A delivery on lent tables. "A delivery as a whole is refused only by 1 and 9 to 11, and then
    /// its delivery number and tallies are 0".
    pub fn deliver(&self, store: &mut Store, bytes: &[u8]) -> (u32, [u32; 4]) {
        let Some(mut content) = tables::read(store) else {
            return (1, [0; 4]);
        };
        let delivery = match read(bytes) {
            Ok(delivery) => delivery,
            Err(number) => return (number, [0; 4]),
        };
        let capacities = Capacities::of(store);
        let mut answers = Vec::new();
        // "Entries run in order, each asked 1 to 5 as a lone update would be".
        for (adding, triple) in delivery.entries {
            let answer = if tables::is_well_formed(&content) {
                self.update_content(&mut content, capacities, adding, triple)
            } else {
                1
            };
            answers.push(answer);
        }
        tables::write(&content, store);
        (0, result(delivery.number, &answers))
    }
}
