//! What is lent to library and model alike: the four tables, and a dictionary.

use crate::model::terms::Triple;

/// The words of a store, and the bytes of a dictionary.
#[derive(Clone, Default, PartialEq)]
pub struct Store {
    pub statements: Vec<u32>,
    pub facts: Vec<u32>,
    pub kept: Vec<u32>,
    pub supports: Vec<u16>,
    pub dictionary: Vec<u8>,
}

/// A table of rows.
#[derive(Clone, Copy, PartialEq, Eq, Debug)]
pub enum Table {
    Statements,
    Facts,
    Kept,
}

impl Table {
    pub const ALL: [Table; 3] = [Table::Statements, Table::Facts, Table::Kept];

    /// The table's name in scripts and counts.
    pub fn name(self) -> &'static str {
        match self {
            Table::Statements => "statements",
            Table::Facts => "facts",
            Table::Kept => "kept",
        }
    }
}

impl Store {
    /// An empty store: the words of the statements, facts and kept facts, and the support places.
    pub fn empty(lengths: [usize; 4]) -> Store {
        Store {
            statements: vec![0; lengths[0]],
            facts: vec![0; lengths[1]],
            kept: vec![0; lengths[2]],
            supports: vec![0; lengths[3]],
            dictionary: Vec::new(),
        }
    }

    /// The words of one table of rows.
    pub fn table(&self, table: Table) -> &Vec<u32> {
        match table {
            Table::Statements => &self.statements,
            Table::Facts => &self.facts,
            Table::Kept => &self.kept,
        }
    }

    /// The words of one table of rows, to be changed.
    pub fn table_mut(&mut self, table: Table) -> &mut Vec<u32> {
        match table {
            Table::Statements => &mut self.statements,
            Table::Facts => &mut self.facts,
            Table::Kept => &mut self.kept,
        }
    }

    /// The words that hold so many rows.
    pub fn words(rows: usize) -> usize {
        3 * rows + 1
    }
}

/// The rows of a well-formed table.
pub fn rows_of(words: &[u32]) -> impl Iterator<Item = Triple> + '_ {
    let rows = words[1..].chunks_exact(3).take(words[0] as usize);
    rows.map(|row| [row[0], row[1], row[2]])
}
