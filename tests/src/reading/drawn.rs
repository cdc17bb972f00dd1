//! Files that are valid by construction: alone, in turn with one dictionary, and with room that is
//! just enough.

use super::{call, delivery_length, expect, opened, read};
use crate::entries;
use crate::files::{self, File, Range, Source};
use crate::model::Model;
use crate::random::Random;
use crate::script::Command;
use crate::session::{Failure, Harness};

/// The lines of a file at most, and of a longer one.
pub const LINES: usize = 6;
const MANY_LINES: usize = 100;

/// Bytes that have room for the new texts of a file: no canonical text is longer than what is written
/// for it.
pub fn room(file: &File) -> usize {
    file.bytes.len() + 3 * 12 * file.triples.len()
}

/// A file alone, with an empty dictionary and more room than it needs.
pub fn alone(harness: &mut Harness, seed: u64) -> Result<(), Failure> {
    let mut random = Random::new(seed);
    let file = files::file(&mut random, &Source::new(LINES, Range::All));
    let mut session = opened(harness, &mut random)?;
    let dictionary = vec![0; room(&file) + random.below(20)];
    let length = delivery_length(file.triples.len()) + random.below(20);
    expect(&mut session, &file.bytes, dictionary, length, 0)
}

/// Files in turn with one dictionary, which knows most texts after a while.
pub fn in_turn(harness: &mut Harness, seed: u64) -> Result<(), Failure> {
    let mut random = Random::new(seed);
    let room = random.pick(&[200, 600, 2000, 4000]);
    read_in_turn(harness, &mut random, LINES, room)
}

/// The same of longer files.
pub fn longer(harness: &mut Harness, seed: u64) -> Result<(), Failure> {
    let mut random = Random::new(seed);
    let room = random.pick(&[5_000, 20_000, 50_000]);
    read_in_turn(harness, &mut random, MANY_LINES, room)
}

/// Files of so many lines at most in turn, some of them twice, some with too short a delivery.
fn read_in_turn(
    harness: &mut Harness,
    random: &mut Random,
    lines: usize,
    room: usize,
) -> Result<(), Failure> {
    let source = Source::with_names(random, lines);
    let mut session = opened(harness, random)?;
    session.run(Command::LendDictionary(vec![0; room]))?;
    let mut file = files::file(random, &source);
    for _ in 0..random.between(2, 10) {
        let needed = delivery_length(file.triples.len());
        let length = match random.once_in(8) {
            true => random.below(needed),
            false => needed + random.below(3),
        };
        session.call(call(&file.bytes, length))?;
        if !random.once_in(4) {
            file = files::file(random, &source);
        }
    }
    Ok(())
}

/// A dictionary that the model leaves, without its free bytes.
pub fn grown(dictionary: &[u8], file: &File) -> Vec<u8> {
    let mut grown = dictionary.to_vec();
    grown.resize(dictionary.len() + room(file), 0);
    let mut delivery = vec![0; delivery_length(file.triples.len())];
    let reply = Model::default().read(&file.bytes, &mut grown, &mut delivery);
    assert!(reply.is_ok(), "the model refuses a file that is valid");
    entries::bytes(&entries::of(&grown))
}

/// A file with a dictionary and a delivery that have just enough room, a byte less, or a byte more;
/// and with any less.
pub fn at_limits(harness: &mut Harness, seed: u64) -> Result<(), Failure> {
    let mut random = Random::new(seed);
    let source = Source::with_names(&mut random, LINES);
    let before = match random.once_in(2) {
        true => Vec::new(),
        false => grown(&[], &files::file(&mut random, &source)),
    };
    let file = files::file(&mut random, &source);
    let filled = grown(&before, &file).len();
    let needed = delivery_length(file.triples.len());
    let mut session = opened(harness, &mut random)?;
    let mut lend = |room: usize, length: usize| {
        let mut dictionary = before.clone();
        dictionary.resize(room, 0);
        read(&mut session, &file.bytes, dictionary, length)
    };
    for room in [filled.saturating_sub(1), filled, filled + 1] {
        for length in [needed - 1, needed, needed + 1] {
            lend(room, length)?;
        }
    }
    lend(random.below(filled + 1), random.below(needed + 1))
}
