//! Rows written as N-Triples by library and model side by side.

mod edges;
mod grown;
mod kinds;
mod large;
mod lent;
mod traps;

pub use large::past_the_places;

use crate::entries;
use crate::generate::Parts;
use crate::model::tables;
use crate::model::terms::{is_statement_property, Graph, Triple};
use crate::plan::{Directed, Phase};
use crate::reading;
use crate::script::{Call, Command, Expected, Output};
use crate::session::{Failure, Session};
use crate::store::{rows_of, Store, Table};

/// The directed cases, by name.
pub const CASES: [Directed; 16] = [
    ("example of writing", |harness| {
        harness.replay_text(include_str!("../../cases/writing.script"))
    }),
    ("traps of writing", traps::run),
    ("texts written and read back", traps::texts),
    ("outputs of each length", edges::outputs),
    ("tables and dictionaries of nothing", edges::nothing),
    ("terms at edges", edges::terms),
    ("each number of a dictionary", edges::numbers),
    ("kinds in each order", edges::orders),
    ("each word of a table", edges::each_word),
    ("each byte of a dictionary", edges::each_byte),
    ("texts of a dictionary", edges::texts),
    ("long texts", large::long_texts),
    ("many texts of a kind", large::of_a_kind),
    ("many texts of all kinds", large::of_all_kinds),
    ("the most rows that are read back", large::most_read_back),
    ("the largest table", large::largest),
];

/// The random phases.
pub const PHASES: [Phase; 5] = [
    ("stores grown from files", grown::run, 300),
    ("lent tables and dictionaries", lent::run, 1000),
    ("lent tables with just enough room", lent::at_limits, 200),
    ("damaged tables", lent::damaged_tables, 500),
    ("damaged dictionaries", lent::damaged_dictionaries, 500),
];

/// The call that writes a table to an output of so many bytes.
fn call(table: Table, length: usize) -> Call {
    let output = Output {
        words: length,
        fill: 7,
    };
    Call::Write(table, output)
}

/// The words of a table with some rows, and so many words more.
fn table_of(rows: &Graph, spare: usize) -> Vec<u32> {
    let mut words = vec![0; Store::words(rows.len()) + spare];
    tables::write_rows(&mut words, rows.iter());
    words
}

/// The bytes of a dictionary with some texts.
fn dictionary_of<T: AsRef<[u8]>>(texts: impl IntoIterator<Item = T>) -> Vec<u8> {
    let texts = texts.into_iter().map(|text| text.as_ref().to_vec());
    entries::bytes(&entries::numbered(texts))
}

/// The tables that may have a row.
fn tables_with(row: Triple) -> &'static [Table] {
    match is_statement_property(row[1]) {
        true => &[Table::Statements],
        false => &[Table::Facts, Table::Kept],
    }
}

/// Lends rows and a dictionary, and writes them; the papers say the lines.
fn expect(
    session: &mut Session,
    table: Table,
    rows: &Graph,
    dictionary: Vec<u8>,
    lines: &[u8],
) -> Result<(), Failure> {
    session.run(Command::Lend(table, table_of(rows, 0)))?;
    session.run(Command::LendDictionary(dictionary))?;
    session.expect(call(table, lines.len()), 0)?;
    session.run(Command::Expect(Expected::Lines(lines.to_vec())))
}

/// Reads the lines that were written last with the same dictionary: "reading the output with that same
/// book yields the same triples and adds no text", "where the delivery has space for them".
fn read_back(session: &mut Session, table: Table) -> Result<(), Failure> {
    let lines = session.last.lines[..session.last.count as usize].to_vec();
    let dictionary = session.store.dictionary.clone();
    let mut parts = Parts::default();
    let section = match table {
        Table::Statements => 2,
        Table::Facts | Table::Kept => 3,
    };
    parts.sections[section] = rows_of(session.store.table(table)).collect();
    let delivery = parts.bytes();
    session.expect(reading::call(&lines, delivery.len() - 1), 15)?;
    session.expect(reading::call(&lines, delivery.len()), 0)?;
    session.run(Command::Expect(Expected::Delivery(delivery)))?;
    session.run(Command::Expect(Expected::Dictionary(dictionary)))
}
