//! Tables as words: question 1, and how rows are written back.

use super::terms::*;
use crate::store::{Store, Table};
use std::collections::BTreeMap;

// "at most 512 statements, 65,535 facts, 262,143 kept facts".
pub const STATEMENTS: usize = 512;
pub const FACTS: usize = 65_535;
pub const KEPT: usize = 262_143;

/// The content of a well-formed store.
#[derive(Clone)]
pub struct Content {
    pub statements: Graph,
    pub facts: Graph,
    pub kept: BTreeMap<Triple, u32>,
}

/// "(words - 1) / 3 rows rounded down", and at most the limit.
pub fn capacity(words: usize, limit: usize) -> usize {
    ((words - 1) / 3).min(limit)
}

/// The kept capacity where supports are lent: "no more kept facts than there are support places".
pub fn kept_limit(support_places: usize) -> usize {
    KEPT.min(support_places)
}

/// The rows of a well-formed table: "a row count, then rows of three words, strictly ascending as
/// unsigned numbers by subject, property, object, then zeros to the end". Malformed is also "a
/// table of rows with no word, a count above its capacity or a row that is no triple allowed in
/// it".
fn rows(words: &[u32], limit: usize, allowed: fn(Triple) -> bool) -> Option<Graph> {
    let count = *words.first()? as usize;
    if count > capacity(words.len(), limit) {
        return None;
    }
    let (rows, rest) = words[1..].split_at(3 * count);
    let rows: Vec<Triple> = rows.chunks(3).map(|row| [row[0], row[1], row[2]]).collect();
    let ascending = rows.windows(2).all(|pair| pair[0] < pair[1]);
    let zeros = rest.iter().all(|word| *word == 0);
    let allowed = rows.iter().all(|row| allowed(*row));
    (ascending && zeros && allowed).then(|| rows.into_iter().collect())
}

/// The statements lent, unless malformed.
pub fn read_statements(words: &[u32]) -> Option<Graph> {
    rows(words, STATEMENTS, is_statement)
}

/// The facts lent, unless malformed.
pub fn read_facts(words: &[u32]) -> Option<Graph> {
    rows(words, FACTS, is_fact)
}

/// The kept facts lent: "Where supports are not lent they limit nothing."
pub fn read_kept(words: &[u32]) -> Option<Graph> {
    rows(words, KEPT, is_fact)
}

/// The rows of one table that is lent alone, unless malformed.
pub fn read_rows(table: Table, words: &[u32]) -> Option<Graph> {
    match table {
        Table::Statements => read_statements(words),
        Table::Facts => read_facts(words),
        Table::Kept => read_kept(words),
    }
}

/// The supports: "one for each kept row in order, then zeros; each lies between 1 and the number of
/// facts."
fn read_supports(places: &[u16], rows: usize, facts: usize) -> Option<Vec<u32>> {
    let (supports, rest) = places.split_at(rows);
    let in_range = supports.iter().all(|n| 1 <= *n && usize::from(*n) <= facts);
    let zeros = rest.iter().all(|n| *n == 0);
    (in_range && zeros).then(|| supports.iter().map(|n| u32::from(*n)).collect())
}

/// Question 1 on all four tables: "Are the store tables lent well formed?"
pub fn read(store: &Store) -> Option<Content> {
    let statements = read_statements(&store.statements)?;
    let facts = read_facts(&store.facts)?;
    let kept = rows(&store.kept, kept_limit(store.supports.len()), is_fact)?;
    let supports = read_supports(&store.supports, kept.len(), facts.len())?;
    let kept = kept.into_iter().zip(supports).collect();
    Some(Content {
        statements,
        facts,
        kept,
    })
}

/// Question 1 on content that was read before and changed since: only supports can have left
/// their range.
pub fn is_well_formed(content: &Content) -> bool {
    let range = 1..=content.facts.len() as u32;
    content.kept.values().all(|n| range.contains(n))
}

/// Writes rows as a table: the count, the rows, "then zeros to the end".
pub fn write_rows<'a>(words: &mut [u32], rows: impl Iterator<Item = &'a Triple>) {
    words.fill(0);
    for (i, row) in rows.enumerate() {
        words[0] += 1;
        words[1 + 3 * i..4 + 3 * i].copy_from_slice(row);
    }
}

/// Writes the content back into the tables that it was read from.
pub fn write(content: &Content, store: &mut Store) {
    write_rows(&mut store.statements, content.statements.iter());
    write_rows(&mut store.facts, content.facts.iter());
    write_rows(&mut store.kept, content.kept.keys());
    store.supports.fill(0);
    for (place, support) in store.supports.iter_mut().zip(content.kept.values()) {
        *place = *support as u16;
    }
}
