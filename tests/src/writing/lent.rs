//! Tables and dictionaries that are lent and not grown, whole or damaged.

use super::grown::{names, write};
use super::{call, dictionary_of, table_of};
use crate::entries;
use crate::files::{self, Range, Source};
use crate::generate::{self, Names};
use crate::model::terms::*;
use crate::random::Random;
use crate::reading::{damage, drawn, opened};
use crate::script::Command;
use crate::session::{Failure, Harness, Session};
use crate::store::Table;

/// The texts of some entries, in any order.
fn texts(random: &mut Random) -> Vec<Vec<u8>> {
    let source = Source::with_families(random, drawn::LINES, Range::All);
    let dictionary = drawn::grown(&[], &files::file(random, &source));
    let entries = entries::of(&dictionary).into_iter();
    let mut texts: Vec<Vec<u8>> = entries.map(|entry| entry.text).collect();
    random.shuffle(&mut texts);
    texts
}

/// The names of a dictionary, now and then with a term that has no text in it.
fn names_of(random: &mut Random, dictionary: &[u8]) -> Names {
    let mut names = names(dictionary);
    match random.below(24) {
        0 => names
            .things
            .push(random.pick(&[6, 15, 200, generate::BLANK - 1])),
        1 => names.classes.push(generate::BLANK + 200),
        2 => names.literals.push(generate::LITERAL + 200),
        3 => names.properties.push(random.pick(&[6, 10, 15])),
        _ => {}
    }
    names.things.push(random.pick(&[TYPE, RANGE]));
    names
}

/// Rows that a table may have, from some names.
fn rows(random: &mut Random, table: Table, names: &Names) -> Graph {
    let rows = (0..random.pick(&[0, 1, 2, 5, 12])).map(|_| match table {
        Table::Statements => generate::statement(random, names),
        Table::Facts | Table::Kept => generate::fact(random, names),
    });
    let allowed = match table {
        Table::Statements => is_statement,
        Table::Facts | Table::Kept => is_fact,
    };
    rows.filter(|row| allowed(*row)).collect()
}

/// A session with a table and a dictionary whose rows it may have.
fn lend<'a>(
    harness: &'a mut Harness,
    random: &mut Random,
) -> Result<(Session<'a>, Table), Failure> {
    let mut dictionary = dictionary_of(texts(random));
    let table = random.pick(&Table::ALL);
    let names = names_of(random, &dictionary);
    let rows = rows(random, table, &names);
    dictionary.resize(dictionary.len() + random.pick(&[0, 1, 11, 12, 40]), 0);
    let words = table_of(&rows, random.pick(&[0, 1, 2, 3, 9]));
    let mut session = opened(harness, random)?;
    session.run(Command::Lend(table, words))?;
    session.run(Command::LendDictionary(dictionary))?;
    Ok((session, table))
}

/// A table and a dictionary as they are lent.
pub fn run(harness: &mut Harness, seed: u64) -> Result<(), Failure> {
    let mut random = Random::new(seed);
    let (mut session, table) = lend(harness, &mut random)?;
    write(&mut random, &mut session, table)
}

/// The same with an output of just enough bytes, of one less, of one more, and of none.
pub fn at_limits(harness: &mut Harness, seed: u64) -> Result<(), Failure> {
    let mut random = Random::new(seed);
    let (mut session, table) = lend(harness, &mut random)?;
    let store = &session.store;
    let model = session.harness.model;
    let lines = model.lines(table, store.table(table), &store.dictionary);
    let exact = lines.map_or(0, |lines| lines.bytes.len());
    for length in [exact.saturating_sub(1), exact, exact + 1, 0] {
        session.call(call(table, length))?;
    }
    Ok(())
}

/// A table that is damaged.
pub fn damaged_tables(harness: &mut Harness, seed: u64) -> Result<(), Failure> {
    let mut random = Random::new(seed);
    let (mut session, table) = lend(harness, &mut random)?;
    let mut words = session.store.table(table).clone();
    generate::damage_rows(&mut random, &mut words);
    session.run(Command::Lend(table, words))?;
    write(&mut random, &mut session, table)
}

/// A dictionary that is damaged.
pub fn damaged_dictionaries(harness: &mut Harness, seed: u64) -> Result<(), Failure> {
    let mut random = Random::new(seed);
    let (mut session, table) = lend(harness, &mut random)?;
    let entries = entries::of(&session.store.dictionary);
    let dictionary = damage::dictionary(&mut random, entries);
    session.run(Command::LendDictionary(dictionary))?;
    write(&mut random, &mut session, table)
}
