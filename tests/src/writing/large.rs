//! Long texts, dictionaries of very many, and the largest table.

use super::kinds::Kind;
use super::{call, dictionary_of, expect, read_back, table_of};
use crate::generate::{BLANK, LITERAL};
use crate::model::dictionary::VOCABULARY;
use crate::model::tables;
use crate::model::terms::*;
use crate::reading::{self, large::MOST_LINES};
use crate::script::Command;
use crate::session::{Failure, Harness, Session};
use crate::store::Table;

/// Texts of a long dictionary.
const MANY: usize = 100_000;

/// Numbers of texts of a kind at which the library's places for them change: it has 16,384.
const COUNTS: [usize; 5] = [16_383, 16_384, 16_385, 32_769, MANY];

/// The line of three texts.
fn line(texts: [&str; 3]) -> String {
    format!("{} .\n", texts.join(" "))
}

/// Dictionaries of very many texts of a kind.
pub fn of_a_kind(harness: &mut Harness) -> Result<(), Failure> {
    for kind in Kind::ALL {
        for count in COUNTS {
            write_each(&mut Session::new(harness), kind, count)?;
        }
    }
    Ok(())
}

/// One text more than the library has places for.
pub fn past_the_places(harness: &mut Harness) -> Result<(), Failure> {
    write_each(&mut Session::new(harness), Kind::Uri, COUNTS[2])
}

/// With so many texts of a kind, each is written once, the last by itself too, and one above it has none.
fn write_each(session: &mut Session, kind: Kind, count: usize) -> Result<(), Failure> {
    let texts: Vec<String> = (0..count).map(|number| kind.text(number)).collect();
    let of_range = |text| line(kind.beside(text, VOCABULARY[0], VOCABULARY[4]));
    let lines: String = texts.iter().map(|text| of_range(text)).collect();
    let row = |number| kind.beside(kind.term(number), TYPE, RANGE);
    let rows = (0..count).map(row).collect();
    let dictionary = dictionary_of(&texts);
    expect(session, Table::Kept, &rows, dictionary, lines.as_bytes())?;
    for (number, answer) in [(count - 1, 0), (count, 16)] {
        let rows = table_of(&Graph::from([row(number)]), 0);
        session.run(Command::Lend(Table::Facts, rows))?;
        session.expect(call(Table::Facts, 200), answer)?;
    }
    Ok(())
}

/// As many rows as a delivery has room for are read back, and one more is not.
pub fn most_read_back(harness: &mut Harness) -> Result<(), Failure> {
    let row = |number| [Kind::Uri.term(number), TYPE, RANGE];
    let dictionary = dictionary_of((0..=MOST_LINES).map(|number| Kind::Uri.text(number)));
    let mut session = Session::new(harness);
    session.run(Command::LendDictionary(dictionary))?;
    for count in [MOST_LINES, MOST_LINES + 1] {
        let rows = table_of(&(0..count).map(row).collect(), 0);
        session.run(Command::Lend(Table::Facts, rows))?;
        session.expect(call(Table::Facts, 1 << 20), 0)?;
        if count == MOST_LINES {
            read_back(&mut session, Table::Facts)?;
        }
    }
    let lines = session.last.lines[..session.last.count as usize].to_vec();
    session.expect(reading::call(&lines, 1 << 20), 15)
}

/// Dictionaries in which very many texts of each kind take turns, two of one kind before one of each
/// other; a row has one of each kind.
pub fn of_all_kinds(harness: &mut Harness) -> Result<(), Failure> {
    for count in [8_192, 8_193, 25_000] {
        let turns = (0..count).flat_map(|number| {
            let uris = [2 * number, 2 * number + 1].map(|number| Kind::Uri.text(number));
            let others = [Kind::Literal, Kind::Blank].map(|kind| kind.text(number));
            uris.into_iter().chain(others)
        });
        let dictionary = dictionary_of(turns);
        let rows: Graph = (0..count)
            .map(|number| {
                let uri = Kind::Uri.term(2 * number + number % 2);
                [Kind::Blank.term(number), uri, Kind::Literal.term(number)]
            })
            .collect();
        let lines = (0..count).map(|number| {
            let uri = Kind::Uri.text(2 * number + number % 2);
            line([&Kind::Blank.text(number), &uri, &Kind::Literal.text(number)])
        });
        let lines: String = lines.collect();
        let mut session = Session::new(harness);
        expect(
            &mut session,
            Table::Facts,
            &rows,
            dictionary,
            lines.as_bytes(),
        )?;
        session.expect(call(Table::Facts, lines.len() - 1), 8)?;
    }
    Ok(())
}

/// Texts longer than any buffer, in each place where they may stand.
pub fn long_texts(harness: &mut Harness) -> Result<(), Failure> {
    let long = "a".repeat(70_000);
    let iri = format!("<p:{long}>");
    let label = format!("_:{long}");
    let string = format!("\"{}\"@a", "\\n\t\u{e9}".repeat(14_000));
    let dictionary = dictionary_of([&iri, &string, &label]);
    let rows = Graph::from([
        [16, 16, 16],
        [16, 16, LITERAL + 1],
        [BLANK + 1, 16, BLANK + 1],
    ]);
    let lines = [
        [&iri, &iri, &iri],
        [&iri, &iri, &string],
        [&label, &iri, &label],
    ];
    let lines: String = lines.map(|texts| line(texts.map(String::as_str))).concat();
    for table in [Table::Facts, Table::Kept] {
        let mut session = Session::new(harness);
        expect(
            &mut session,
            table,
            &rows,
            dictionary.clone(),
            lines.as_bytes(),
        )?;
        for (length, number) in [
            (lines.len() - 1, 8),
            (lines.len() + 1, 0),
            (70_000, 8),
            (0, 8),
        ] {
            session.expect(call(table, length), number)?;
        }
    }
    Ok(())
}

/// As many kept rows as there may be, with the texts of a long dictionary; the output has just enough
/// bytes, and then one less.
pub fn largest(harness: &mut Harness) -> Result<(), Failure> {
    let term = |number: usize| Kind::Uri.term(number % MANY);
    let text = |number: usize| Kind::Uri.text(number % MANY);
    let numbers = 0..tables::KEPT;
    let parts = |number: usize| [number / 3, number % 3, 7 * number];
    let rows = numbers
        .clone()
        .map(|number| parts(number).map(term))
        .collect();
    let lines = numbers.map(|number| {
        let [subject, property, object] = parts(number).map(text);
        line([&subject, &property, &object])
    });
    let lines: String = lines.collect();
    let mut session = Session::new(harness);
    let dictionary = dictionary_of((0..MANY).map(text));
    expect(
        &mut session,
        Table::Kept,
        &rows,
        dictionary,
        lines.as_bytes(),
    )?;
    session.expect(call(Table::Kept, lines.len() - 1), 8)
}
