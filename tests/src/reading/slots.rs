//! Texts that the library's index of a dictionary puts close together.

use super::{call, delivery_length, expect};
use crate::entries;
use crate::model::dictionary::VOCABULARY;
use crate::script::Command;
use crate::session::{Failure, Harness, Session};

/// The slot at which the library looks for a text first, as crates/dictionary_hash has it.
fn slot_of(text: &str) -> u64 {
    let on = |hash: u64, byte: u8| (hash * 16_777_619 + u64::from(byte)) % (1 << 32);
    let hash = text.bytes().fold(0, on);
    hash * 2_654_435_769 % (1 << 32) / 65_536
}

/// Texts that all begin at the last slots of the index, so that a few of them fill a segment.
pub fn last_slots(harness: &mut Harness) -> Result<(), Failure> {
    let iris = (0..).map(|number| format!("<p:{number}>"));
    let texts: Vec<String> = iris.filter(|iri| slot_of(iri) >= 65_530).take(30).collect();
    let mut session = Session::new(harness);
    for known in 0..texts.len() {
        let of_known = texts[..known].iter().map(|text| text.clone().into_bytes());
        let mut dictionary = entries::bytes(&entries::numbered(of_known));
        dictionary.resize(2000, 0);
        session.run(Command::LendDictionary(dictionary))?;
        let line = |text: &String| format!("{text} {0} {text} .\n", texts[known]);
        let file: String = texts.iter().rev().map(line).collect();
        for _ in 0..2 {
            session.expect(call(file.as_bytes(), delivery_length(30)), 0)?;
        }
    }
    Ok(())
}

/// Texts with the same slot, of which the second begins as the first.
type Pair = (String, String);

/// Some such pairs of labels and of literals.
fn pairs() -> Vec<Pair> {
    let numbers = || (0..).flat_map(|n| (0..100).map(move |m| (n, m)));
    let labels = numbers().map(|(n, m): (u32, u32)| (format!("_:{n}"), format!("_:{n}{m}")));
    let literals = numbers().map(|(n, m)| (format!("\"{n}\""), format!("\"{n}\"@a-{m}")));
    let is_pair = |(first, second): &Pair| slot_of(first) == slot_of(second);
    let labels = labels.filter(is_pair).take(4);
    labels.chain(literals.filter(is_pair).take(4)).collect()
}

/// One text of a pair read where the other is known and fills the dictionary, and where there is room.
pub fn begun_alike(harness: &mut Harness) -> Result<(), Failure> {
    let mut session = Session::new(harness);
    let pairs = pairs().into_iter();
    let both = pairs.flat_map(|(first, second)| [(first.clone(), second.clone()), (second, first)]);
    for (known, new) in both {
        let file = format!("{0} {0} {new} .", VOCABULARY[0]);
        let file = file.as_bytes();
        let length = delivery_length(1);
        let mut dictionary = entries::bytes(&entries::numbered([known.into_bytes()]));
        expect(&mut session, file, dictionary.clone(), length, 14)?;
        dictionary.resize(dictionary.len() + 12 + new.len(), 0);
        expect(&mut session, file, dictionary, length, 0)?;
        session.expect(call(file, length), 0)?;
    }
    Ok(())
}
