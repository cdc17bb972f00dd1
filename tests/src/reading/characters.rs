//! Characters at the edges of the grammar's ranges and of UTF-8, spelled in every way, at every place.

use super::{delivery_length, opened, read};
use crate::entries;
use crate::random::Random;
use crate::session::{Failure, Harness, Session};

/// Numbers at which a range of characters begins or the one before it ends: those of one byte that
/// mean something, of PN_CHARS, of the lengths of UTF-8, of surrogates, and past the last.
const EDGES: [u32; 75] = [
    0x00, 0x01, 0x08, 0x09, 0x0a, 0x0b, 0x0d, 0x0e, 0x1f, 0x20, 0x21, 0x22, 0x23, 0x27, 0x28, 0x2d,
    0x2e, 0x2f, 0x30, 0x3a, 0x3b, 0x3c, 0x3d, 0x3e, 0x3f, 0x40, 0x41, 0x5b, 0x5c, 0x5d, 0x5e, 0x5f,
    0x60, 0x61, 0x7b, 0x7c, 0x7d, 0x7e, 0x80, 0xb7, 0xb8, 0xc0, 0xd7, 0xd8, 0xf7, 0xf8, 0x300,
    0x370, 0x37e, 0x37f, 0x800, 0x2000, 0x200c, 0x200e, 0x203f, 0x2041, 0x2070, 0x2190, 0x2c00,
    0x2ff0, 0x3001, 0xd800, 0xdc00, 0xe000, 0xf900, 0xfdd0, 0xfdf0, 0xfeff, 0xfffe, 0x1_0000,
    0xe_0000, 0xf_0000, 0x10_ffff, 0x11_0000, 0x1f_ffff,
];

/// The numbers themselves, and those right before them.
fn numbers() -> [u32; 2 * EDGES.len()] {
    std::array::from_fn(|i| EDGES[i / 2].saturating_sub(i as u32 % 2))
}

/// The bits that UTF-8's scheme has room for in one to four bytes.
const BITS: [u32; 4] = [7, 11, 16, 21];

/// A number in so many bytes by UTF-8's scheme, also where it is no UTF-8: in more bytes than needed,
/// a surrogate, or past the last character.
fn in_bytes(number: u32, length: usize) -> Vec<u8> {
    let lead = [0x00, 0xc0, 0xe0, 0xf0][length - 1];
    let mut bytes = vec![lead | (number >> (6 * (length - 1))) as u8];
    for i in (0..length - 1).rev() {
        bytes.push(0x80 | (number >> (6 * i) & 0x3f) as u8);
    }
    bytes
}

/// Every way to spell a number: in bytes, and by escapes.
fn spellings(number: u32) -> Vec<Vec<u8>> {
    let lengths = (1..5).filter(|length| number >> BITS[length - 1] == 0);
    let mut spellings: Vec<Vec<u8>> = lengths.map(|length| in_bytes(number, length)).collect();
    if number < 0x1_0000 {
        spellings.push(format!("\\u{number:04x}").into_bytes());
        spellings.push(format!("\\u{number:04X}").into_bytes());
    }
    spellings.push(format!("\\U{number:08x}").into_bytes());
    spellings.push(format!("\\U{number:08X}").into_bytes());
    spellings
}

/// A place of a character: what stands before it, and behind it.
type Place = (&'static str, &'static str);

/// Places in a line.
const LINES: [Place; 22] = [
    ("", "<a:> <a:> <a:> ."),
    ("<", "a:> <a:> <a:> ."),
    ("<a", ":> <a:> <a:> ."),
    ("<a:", "> <a:> <a:> ."),
    ("<a:>", "<a:> <a:> ."),
    ("_:", " <a:> <a:> ."),
    ("_:a", " <a:> <a:> ."),
    ("_:a", "a <a:> <a:> ."),
    ("<a:> <a:> _:a", "."),
    ("<a:> <a:> _:a.", "a ."),
    ("<a:> <a:> ", " ."),
    ("<a:> <a:> \"", "\" ."),
    ("<a:> <a:> \"\\", "\" ."),
    ("<a:> <a:> \"\\u004", "\" ."),
    ("<a:> <a:> \"\"", "@a ."),
    ("<a:> <a:> \"\"@a", " ."),
    ("<a:> <a:> \"\"@a-", " ."),
    ("<a:> <a:> \"\"^^", "<a:> ."),
    ("<a:> <a:> \"\"^^<a", ":> ."),
    ("<a:> <a:> \"\"^^<a:", "> ."),
    ("<a:> <a:> <a:> .", ""),
    ("<a:> <a:> <a:> .#", "a\n"),
];

/// Places in a text of a dictionary.
const TEXTS: [Place; 9] = [
    ("<a:", ">"),
    ("<", ":>"),
    ("_:", ""),
    ("_:a", ""),
    ("_:a", "a"),
    ("\"", "\""),
    ("\"\"@a", ""),
    ("\"\"^^<a:", ">"),
    ("\"\"", ""),
];

/// Some bytes at a place.
fn put((before, behind): Place, bytes: &[u8]) -> Vec<u8> {
    [before.as_bytes(), bytes, behind.as_bytes()].concat()
}

/// Runs for each place with each number in each spelling.
fn each(
    harness: &mut Harness,
    places: &[Place],
    case: fn(&mut Session, Vec<u8>) -> Result<(), Failure>,
) -> Result<(), Failure> {
    for place in places {
        for number in numbers() {
            let mut session = Session::new(harness);
            for spelling in spellings(number) {
                case(&mut session, put(*place, &spelling))?;
            }
        }
    }
    Ok(())
}

/// Each at each place of a line, read into an empty dictionary.
pub fn in_lines(harness: &mut Harness) -> Result<(), Failure> {
    each(harness, &LINES, |session, line| {
        read(session, &line, vec![0; 80], delivery_length(1))
    })
}

/// Each at each place of a dictionary's only text.
pub fn in_dictionaries(harness: &mut Harness) -> Result<(), Failure> {
    each(harness, &TEXTS, |session, text| {
        let dictionary = entries::bytes(&entries::numbered([text]));
        read(session, b"", dictionary, delivery_length(0))
    })
}

/// Some characters in a file of a few lines, most of them where they may stand.
pub fn in_files(harness: &mut Harness, seed: u64) -> Result<(), Failure> {
    let mut random = Random::new(seed);
    let mut file = Vec::new();
    for _ in 0..random.between(1, 4) {
        let place = random.pick(&[LINES[3], LINES[7], LINES[11], LINES[19], LINES[21]]);
        let mut characters = Vec::new();
        for _ in 0..random.between(0, 2) {
            let spellings = spellings(random.pick(&numbers()));
            characters.extend(&spellings[random.below(spellings.len())]);
        }
        file.extend(put(place, &characters));
        file.push(random.pick(b"\r\n"));
    }
    let mut session = opened(harness, &mut random)?;
    read(&mut session, &file, vec![0; 400], delivery_length(4))
}
