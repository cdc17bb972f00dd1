//! N-Triples read by library and model side by side.

mod characters;
pub mod damage;
pub mod drawn;
pub mod large;
mod places;
mod slots;
pub mod traps;

use crate::plan::{Directed, Phase};
use crate::random::Random;
use crate::script::{Call, Command, Output};
use crate::session::{Failure, Harness, Session};

/// The directed cases, by name.
pub const CASES: [Directed; 20] = [
    ("example of reading", |harness| {
        harness.replay_text(include_str!("../../cases/reading.script"))
    }),
    ("traps of reading", traps::run),
    ("canonical texts", traps::texts),
    ("bytes that are no UTF-8", traps::no_utf8),
    ("texts of a dictionary", damage::texts),
    ("slices of no byte", places::no_bytes),
    ("the most lines", large::most_lines),
    ("more lines than a delivery holds", large::more_lines),
    ("long texts", large::long_texts),
    ("texts at the end of an index", slots::last_slots),
    ("texts of one slot that begin alike", slots::begun_alike),
    ("dictionaries of several segments", large::segments),
    ("a text twice, in two segments", large::twice),
    ("a dictionary full of many texts", large::full),
    ("a dictionary grown past a segment", large::grown),
    ("characters at edges in a line", characters::in_lines),
    (
        "characters at edges in a dictionary",
        characters::in_dictionaries,
    ),
    ("each byte of a line", places::each_byte),
    ("each byte of a dictionary", places::each_byte_of_dictionary),
    ("short strings", places::short_strings),
];

/// The random phases: together some thousand files for each thousand asked for.
pub const PHASES: [Phase; 7] = [
    ("files with an empty dictionary", drawn::alone, 200),
    ("files in turn with one dictionary", drawn::in_turn, 35),
    ("files with just enough room", drawn::at_limits, 20),
    ("damaged files", damage::files, 200),
    ("damaged dictionaries", damage::dictionaries, 150),
    ("files with characters at edges", characters::in_files, 50),
    ("longer files in turn", drawn::longer, 1),
];

/// A session in which slices of no byte are null pointers, or calls are made by the binding for Rust,
/// now and then.
pub fn opened<'a>(harness: &'a mut Harness, random: &mut Random) -> Result<Session<'a>, Failure> {
    let mut session = Session::new(harness);
    match random.below(16) {
        0 => session.run(Command::Binding(true))?,
        1..4 => session.run(Command::Nulls(true))?,
        _ => {}
    }
    Ok(session)
}

/// The call that reads a file into a delivery of so many bytes.
pub fn call(file: &[u8], length: usize) -> Call {
    let output = Output {
        words: length,
        fill: 3,
    };
    Call::Read(file.to_vec(), output)
}

/// Reads a file with a dictionary into a delivery of so many bytes.
fn read(
    session: &mut Session,
    file: &[u8],
    dictionary: Vec<u8>,
    length: usize,
) -> Result<(), Failure> {
    session.run(Command::LendDictionary(dictionary))?;
    session.call(call(file, length))
}

/// The same, where the papers say the answer.
fn expect(
    session: &mut Session,
    file: &[u8],
    dictionary: Vec<u8>,
    length: usize,
    number: u32,
) -> Result<(), Failure> {
    session.run(Command::LendDictionary(dictionary))?;
    session.expect(call(file, length), number)
}

/// The bytes of a delivery of so many triples.
pub fn delivery_length(triples: usize) -> usize {
    10 + 12 * triples
}
