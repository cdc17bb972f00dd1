//! Damaged files and damaged dictionaries.

use super::drawn::{grown, room, LINES};
use super::{delivery_length, opened, read};
use crate::entries::{self, Entry};
use crate::files::{self, Source};
use crate::random::Random;
use crate::session::{Failure, Harness, Session};

/// Bytes that matter to the grammar, to escapes, or to UTF-8.
const SPECIAL: &[u8] = b"\"\\<>_:.@^# \t\r\n\0-uUtnbf'0aFgG{}|`\x0b\x0c\x7f\x80\x9f\xa0\xbf\xc0\xc1\xc2\xdf\xe0\xe1\xed\xee\xef\xf0\xf1\xf4\xf5\xff";

/// A place in some bytes, or behind the last: often one behind a backslash.
fn place(random: &mut Random, bytes: &[u8]) -> usize {
    let at = random.below(bytes.len() + 1);
    match bytes[at..].iter().position(|byte| *byte == b'\\') {
        Some(more) if random.once_in(2) => bytes.len().min(at + more + random.below(10)),
        _ => at,
    }
}

/// Damages some bytes at a place.
fn damage(random: &mut Random, bytes: &mut Vec<u8>) {
    let at = place(random, bytes);
    let end = bytes.len().min(at + random.between(1, 8));
    let other = random.below(bytes.len() + 1);
    match random.below(8) {
        0 => bytes.truncate(at),
        1 => drop(bytes.drain(at..end)),
        2 => bytes.extend_from_within(at..end),
        3 => drop(bytes.splice(at..at, bytes[at..end].to_vec())),
        4 if end - at > 1 => bytes.swap(at, at + 1),
        5 if end > at && other < bytes.len() => bytes.swap(at, other),
        6 if end > at => bytes[at] = random.pick(SPECIAL),
        7 if end > at => bytes[at] ^= 1 << random.below(8),
        _ => bytes.insert(at, random.pick(SPECIAL)),
    }
}

/// A file that was valid, damaged at one or two places, with an empty dictionary or one that knows
/// what the file said.
pub fn files(harness: &mut Harness, seed: u64) -> Result<(), Failure> {
    let mut random = Random::new(seed);
    let source = Source::with_names(&mut random, LINES);
    let file = files::file(&mut random, &source);
    let mut dictionary = match random.once_in(4) {
        true => grown(&[], &file),
        false => Vec::new(),
    };
    dictionary.resize(dictionary.len() + room(&file), 0);
    let mut bytes = file.bytes;
    for _ in 0..random.between(1, 2) {
        damage(&mut random, &mut bytes);
    }
    let length = delivery_length(file.triples.len() + 1);
    read(
        &mut opened(harness, &mut random)?,
        &bytes,
        dictionary,
        length,
    )
}

/// Texts that no entry may have, and some that one may.
pub const TEXTS: [&[u8]; 44] = [
    b"<http://www.w3.org/1999/02/22-rdf-syntax-ns#type>",
    b"<http://www.w3.org/2000/01/rdf-schema#subClassOf>",
    b"<http://www.w3.org/2000/01/rdf-schema#subPropertyOf>",
    b"<http://www.w3.org/2000/01/rdf-schema#domain>",
    b"<http://www.w3.org/2000/01/rdf-schema#range>",
    b"<http://www.w3.org/2000/01/rdf-schema#label>",
    b"<http://www.w3.org/2000/01/rdf-schema#\\u0072ange>",
    b"<http://e/\\u0073>",
    b"<http://e/\\u003E>",
    b"<http://e/s",
    b"<s>",
    b"<>",
    b"<a:>",
    b"<a:b> ",
    b"<a:b>.",
    b" <a:b>",
    b"<a: >",
    b"<a:<>",
    b"<a:\xed\xa0\x80>",
    b"<a:\xc3\xa9>",
    b"_:",
    b"_:b",
    b"_:b.",
    b"_:b.c",
    b"_:-b",
    b"_:\xff",
    b"\"\"",
    b"\"a",
    b"\"a\"\"",
    b"\"\0\"",
    b"\"\t\"",
    b"\"\\t\"",
    b"\"\\'\"",
    b"\"\\n\\r\\\\\\\"\"",
    b"\"\n\"",
    b"\"\\u0041\"",
    b"\"\xc0\x80\"",
    b"\"a\"@en",
    b"\"a\"@EN",
    b"\"a\" @en",
    b"\"a\"^^<a:b>",
    b"\"a\"^^ <a:b>",
    b"\"a\"^^<http://www.w3.org/2001/XMLSchema#string>",
    b"",
];

/// Each text as that of an entry, alone, behind another, and twice.
pub fn texts(harness: &mut Harness) -> Result<(), Failure> {
    for text in TEXTS {
        let mut session = Session::new(harness);
        for texts in [&[text][..], &[b"<a:a>", text], &[text, text]] {
            let texts = texts.iter().map(|text| text.to_vec());
            let dictionary = entries::bytes(&entries::numbered(texts));
            read(&mut session, b"", dictionary, delivery_length(0))?;
        }
    }
    Ok(())
}

/// Another term in place of one.
fn other_term(random: &mut Random, term: u32) -> u32 {
    match random.below(7) {
        0 => term.wrapping_add(1),
        1 => term.wrapping_sub(1),
        2 => term ^ 1 << 30,
        3 => term ^ 1 << 31,
        4 => term & 3 << 30,
        5 => 0,
        _ => term ^ 1 << random.below(32),
    }
}

/// Another length in place of one.
fn other_length(random: &mut Random, length: u64) -> u64 {
    match random.below(6) {
        0 => length.wrapping_add(1),
        1 => length.wrapping_sub(1),
        2 => length ^ 1 << 32,
        3 => length ^ 1 << 63,
        4 => u64::MAX - random.below(40) as u64,
        _ => random.below(60) as u64,
    }
}

/// Damages one entry, puts one in, leaves one out, or changes the order of two.
fn damage_entries(random: &mut Random, entries: &mut Vec<Entry>) {
    let at = random.below(entries.len() + 1);
    if at == entries.len() {
        entries.push(Entry::new(16, random.pick(&TEXTS).to_vec()));
    }
    let other = random.below(entries.len());
    let entry = &mut entries[at];
    match random.below(7) {
        0 => entry.term = other_term(random, entry.term),
        1 => entry.length = other_length(random, entry.length),
        2 => {
            damage(random, &mut entry.text);
            entry.length = entry.text.len() as u64;
        }
        3 => *entry = Entry::new(entry.term, random.pick(&TEXTS).to_vec()),
        4 => entries.swap(at, other),
        5 => entries[at] = entries[other].clone(),
        _ => drop(entries.remove(at)),
    }
}

/// Damages the bytes of a dictionary, of which so many are filled.
fn damage_bytes(random: &mut Random, dictionary: &mut Vec<u8>, filled: usize) {
    let length = dictionary.len();
    match random.below(3) {
        0 => dictionary.truncate(random.below(length + 1)),
        1 if filled < length => {
            dictionary[random.between(filled, length - 1)] = random.pick(&[1, 16, 255])
        }
        _ => damage(random, dictionary),
    }
}

/// A dictionary of entries that are damaged, now and then so that they are numbered as they should be
/// again.
pub fn dictionary(random: &mut Random, mut entries: Vec<Entry>) -> Vec<u8> {
    for _ in 0..random.below(3) {
        damage_entries(random, &mut entries);
    }
    if random.once_in(2) {
        entries = entries::numbered(entries.into_iter().map(|entry| entry.text));
    }
    let mut dictionary = entries::bytes(&entries);
    let filled = dictionary.len();
    dictionary.resize(filled + random.pick(&[0, 1, 11, 12, 40, 400]), 0);
    if random.once_in(3) {
        damage_bytes(random, &mut dictionary, filled);
    }
    dictionary
}

/// A file with a dictionary that was grown and then damaged.
pub fn dictionaries(harness: &mut Harness, seed: u64) -> Result<(), Failure> {
    let mut random = Random::new(seed);
    let source = Source::with_names(&mut random, LINES);
    let entries = entries::of(&grown(&[], &files::file(&mut random, &source)));
    let dictionary = dictionary(&mut random, entries);
    let file = files::file(&mut random, &source);
    let length = delivery_length(file.triples.len());
    read(
        &mut opened(harness, &mut random)?,
        &file.bytes,
        dictionary,
        length,
    )
}
