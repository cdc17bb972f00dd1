//! Stores grown from files that are read with one dictionary and delivered, their tables written, and
//! what was written read back.

use super::{call, read_back};
use crate::entries;
use crate::files::{self, Range, Source};
use crate::generate::{self, Names, BLANK, LITERAL};
use crate::histories;
use crate::model::terms::*;
use crate::random::Random;
use crate::reading::{self, delivery_length, opened};
use crate::script::{Call, Command};
use crate::session::{Failure, Harness, Session};
use crate::store::Table;

/// The lines of a file at most.
const LINES: usize = 8;

/// A store that is grown by files and updates in turn, its tables written on the way.
pub fn run(harness: &mut Harness, seed: u64) -> Result<(), Failure> {
    let mut random = Random::new(seed);
    let source = Source::with_families(&mut random, LINES, Range::All);
    let mut session = opened(harness, &mut random)?;
    session.run(Command::Empty(histories::lengths(&mut random)))?;
    let room = random.pick(&[300, 1000, 3000]);
    session.run(Command::LendDictionary(vec![0; room]))?;
    let spoilt = random.once_in(4);
    for _ in 0..random.between(1, 4) {
        deliver(&mut session, &files::file(&mut random, &source).bytes)?;
        for _ in 0..random.below(5) {
            let change = change(&mut random, &session, spoilt);
            session.call(change)?;
        }
        for table in Table::ALL {
            write(&mut random, &mut session, table)?;
        }
    }
    Ok(())
}

/// Reads a file with the dictionary, and delivers what it gives.
pub fn deliver(session: &mut Session, file: &[u8]) -> Result<(), Failure> {
    session.call(reading::call(file, delivery_length(LINES + 1)))?;
    match session.last.number {
        0 => {
            let length = session.last.count as usize;
            let delivery = session.last.delivery[..length].to_vec();
            session.call(Call::Deliver(delivery))
        }
        _ => Ok(()),
    }
}

/// The terms of the dictionary, and some for the kinds of which it has none.
pub fn names(dictionary: &[u8]) -> Names {
    let entries = entries::of(dictionary);
    let some = |wanted: fn(u32) -> bool, other: u32| -> Vec<u32> {
        let terms = entries.iter().map(|entry| entry.term);
        let terms: Vec<u32> = terms.filter(|term| wanted(*term)).collect();
        match terms.is_empty() {
            true => vec![other],
            false => terms,
        }
    };
    let things = some(|term| !is_literal(term), BLANK + 1);
    Names {
        classes: things.clone(),
        properties: some(is_uri, 16),
        things,
        literals: some(is_literal, LITERAL + 1),
    }
}

/// An update, or where terms may be spoilt also a delivery.
fn change(random: &mut Random, session: &Session, spoilt: bool) -> Call {
    let store = &session.store;
    let names = names(&store.dictionary);
    if spoilt || random.once_in(3) {
        return histories::change(random, &names, store, 3);
    }
    Call::Add(match random.once_in(3) {
        true => generate::statement(random, &names),
        false => generate::fact(random, &names),
    })
}

/// Bytes for lines of so many: none, too few, just enough, or more.
pub fn room(random: &mut Random, exact: usize) -> usize {
    match random.below(8) {
        0 => 0,
        1 => exact.saturating_sub(1),
        2 => random.below(exact + 1),
        3 => exact + 1,
        4 => exact + random.below(40),
        _ => exact,
    }
}

/// Writes a table, and reads back what was written.
pub fn write(random: &mut Random, session: &mut Session, table: Table) -> Result<(), Failure> {
    let store = &session.store;
    let model = session.harness.model;
    let lines = model.lines(table, store.table(table), &store.dictionary);
    let length = room(random, lines.map_or(60, |lines| lines.bytes.len()));
    session.call(call(table, length))?;
    match session.last.number == 0 && random.once_in(2) {
        true => read_back(session, table),
        false => Ok(()),
    }
}
