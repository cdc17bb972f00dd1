//! Large files, long texts, and dictionaries of very many.

use super::{call, delivery_length, expect};
use crate::entries;
use crate::model::deliveries::BYTES;
use crate::script::Command;
use crate::session::{Failure, Harness, Session};

/// The triples that a delivery has room for.
pub const MOST_LINES: usize = 5_460;

/// The texts that the library's index of a dictionary leads to at most.
const SEGMENT: usize = 49_152;

/// Texts of a long dictionary.
const MANY: usize = 100_000;

/// The text with a number: an IRI mostly, or else a blank node or a literal.
fn text(number: usize) -> String {
    match number % 5 {
        3 => format!("_:b{number}"),
        4 => format!("\"{number}\""),
        _ => format!("<p:{number}>"),
    }
}

/// A dictionary with the texts of some numbers.
fn dictionary(numbers: impl Iterator<Item = usize>) -> Vec<u8> {
    let texts = numbers.map(|number| text(number).into_bytes());
    entries::bytes(&entries::numbered(texts))
}

/// A file of so many lines, each with a subject of its own.
fn file(lines: usize) -> String {
    let line = |number| format!("<s:{number}> <p:p> <p:o> .\n");
    (0..lines).map(line).collect()
}

/// Bytes that are enough for the texts of such files.
const ROOM: usize = 1 << 20;

/// As many lines as a delivery has room for, and one more.
pub fn most_lines(harness: &mut Harness) -> Result<(), Failure> {
    let mut session = Session::new(harness);
    let most = file(MOST_LINES);
    let more = file(MOST_LINES + 1);
    let needed = delivery_length(MOST_LINES);
    for (file, length, number) in [
        (&most, needed - 1, 15),
        (&most, needed, 0),
        (&most, BYTES, 0),
        (&most, BYTES + 99, 0),
        (&more, BYTES, 15),
        (&more, BYTES + 99, 15),
    ] {
        expect(&mut session, file.as_bytes(), vec![0; ROOM], length, number)?;
    }
    Ok(())
}

/// More lines than a delivery has room for: 13 for the last line, then 14 for the last text, then 15.
pub fn more_lines(harness: &mut Harness) -> Result<(), Failure> {
    let mut session = Session::new(harness);
    let good = file(3 * MOST_LINES);
    let broken = good.clone() + "x";
    let texts = (0..3 * MOST_LINES).map(|number| 12 + format!("<s:{number}>").len());
    let filled = texts.sum::<usize>() + 2 * (12 + "<p:p>".len());
    for (file, room, number) in [
        (&broken, filled, 13),
        (&broken, 0, 13),
        (&good, filled - 1, 14),
        (&good, filled / 2, 14),
        (&good, 0, 14),
        (&good, filled, 15),
    ] {
        expect(&mut session, file.as_bytes(), vec![0; room], BYTES, number)?;
    }
    Ok(())
}

/// A text with its last letter changed, and without that letter.
fn others(text: &str) -> [String; 2] {
    let mut letters = text.char_indices().rev();
    let (last, letter) = letters.find(|(_, c)| c.is_alphabetic()).expect("a letter");
    let (before, behind) = (&text[..last], &text[last + letter.len_utf8()..]);
    [format!("{before}b{behind}"), format!("{before}{behind}")]
}

/// Texts longer than any buffer: new, then others that are nearly the same, and then known.
pub fn long_texts(harness: &mut Harness) -> Result<(), Failure> {
    let mut session = Session::new(harness);
    let long = "a".repeat(70_000);
    for text in [
        format!("<p:{long}>"),
        format!("_:{long}"),
        format!("\"{long}\""),
        format!("\"\"@{long}"),
        format!("\"\"^^<p:{long}>"),
        format!("\"{}\"", "\\n\u{e9}".repeat(20_000)),
    ] {
        session.run(Command::LendDictionary(vec![0; 4 * text.len()]))?;
        let [other, shorter] = others(&text);
        for text in [&text, &other, &shorter, &text] {
            let file = format!("<a:> <a:> {text} . # {long}");
            session.expect(call(file.as_bytes(), delivery_length(1)), 0)?;
        }
    }
    Ok(())
}

/// A file with the texts of some numbers, each of its lines twice.
fn file_of(subjects: &[usize], property: usize, objects: &[usize]) -> String {
    let mut file = String::new();
    for subject in subjects {
        for object in objects {
            let line = [*subject, property, *object].map(text).join(" ");
            file += &format!("{line} .\n{line} .\n");
        }
    }
    file
}

/// Dictionaries with as many texts as one segment has, or as some have, and one more or less.
pub fn segments(harness: &mut Harness) -> Result<(), Failure> {
    for count in [SEGMENT - 1, SEGMENT, SEGMENT + 1, 2 * SEGMENT, MANY] {
        read_edges(&mut Session::new(harness), count)?;
    }
    Ok(())
}

/// Reads the texts at the edges of segments and of a dictionary of so many texts, and a new one; and
/// then again, when all are known.
fn read_edges(session: &mut Session, count: usize) -> Result<(), Failure> {
    let mut dictionary = dictionary(0..count);
    dictionary.resize(dictionary.len() + 100, 0);
    session.run(Command::LendDictionary(dictionary))?;
    let subjects = [0, SEGMENT - 2, SEGMENT - 1, SEGMENT];
    let objects = [count - 3, count - 2, count - 1, MANY + 4];
    let file = file_of(&subjects, SEGMENT - 2, &objects);
    for _ in 0..2 {
        session.expect(call(file.as_bytes(), BYTES), 0)?;
    }
    Ok(())
}

/// A text that stands in two segments, or twice in the last.
pub fn twice(harness: &mut Harness) -> Result<(), Failure> {
    let places = [
        (0, MANY),
        (SEGMENT - 1, SEGMENT),
        (SEGMENT, MANY),
        (MANY - 1, MANY),
    ];
    places.into_iter().try_for_each(|(first, last)| {
        let dictionary = dictionary((0..last).chain([first]));
        expect(&mut Session::new(harness), b"", dictionary, 10, 1)
    })
}

/// A dictionary of many texts that is full: known texts are read, and one new text is not.
pub fn full(harness: &mut Harness) -> Result<(), Failure> {
    let known = file_of(&[1, MANY - 5], 7, &[MANY - 1, 2]);
    let new = known.clone() + &file_of(&[MANY], 7, &[3]);
    let mut session = Session::new(harness);
    session.run(Command::LendDictionary(dictionary(0..MANY)))?;
    session.expect(call(known.as_bytes(), BYTES), 0)?;
    session.expect(call(new.as_bytes(), BYTES), 14)?;
    session.expect(call(known.as_bytes(), BYTES), 0)
}

/// A dictionary that grows past a segment by files of three new texts a line, each followed by one of
/// texts that are known.
pub fn grown(harness: &mut Harness) -> Result<(), Failure> {
    let mut session = Session::new(harness);
    session.run(Command::LendDictionary(vec![0; 4 << 20]))?;
    for turn in 0..7 {
        let first = turn * MOST_LINES;
        let line = |number| format!("_:s{number} <p:{number}> \"{number}\" .\n");
        let new: String = (first..first + MOST_LINES).map(line).collect();
        let known: String = (0..first).step_by(100).map(line).collect();
        for file in [new, known] {
            session.expect(call(file.as_bytes(), BYTES), 0)?;
        }
    }
    Ok(())
}
