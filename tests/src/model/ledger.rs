//! The ledger: what every call of a history from an empty store must have answered and left.

use super::deliveries;
use super::tables::{self, Content};
use super::terms::*;
use super::updates::{refused_by_form, Capacities};
use super::{Model, IDLE};
use crate::store::Store;

/// "It holds two sets, statements and facts, empty at first."
#[derive(Clone)]
pub struct Ledger {
    model: Model,
    capacities: Capacities,
    statements: Graph,
    facts: Graph,
}

impl Ledger {
    /// The ledger of an empty store, each table of rows with a word.
    pub fn new(model: Model, store: &Store) -> Ledger {
        Ledger {
            model,
            capacities: Capacities::of(store),
            statements: Graph::new(),
            facts: Graph::new(),
        }
    }

    /// "An update is asked 2 to 5 on them .. The first "no" refuses it by that number, and both sets
    /// stay."
    pub fn update(&mut self, adding: bool, triple: Triple) -> u32 {
        if let Some(number) = refused_by_form(triple) {
            return number;
        }
        let mut after = self.clone();
        let (set, capacity) = if is_statement_property(triple[1]) {
            (&mut after.statements, self.capacities.statements)
        } else {
            (&mut after.facts, self.capacities.facts)
        };
        // "4 whether an added triple is in its set or that set is below capacity".
        if adding && !set.contains(&triple) && set.len() >= capacity {
            return 4;
        }
        let changes = if adding {
            set.insert(triple)
        } else {
            set.remove(&triple)
        };
        // "5 whether the facts after it, with all that follow, fit the kept capacity".
        let kept = self.model.saturation(&after.statements, &after.facts);
        if kept.len() > self.capacities.kept {
            return 5;
        }
        if !changes {
            return IDLE;
        }
        *self = after;
        0
    }

    /// "A delivery is asked 9 to 11 on its bytes .. Otherwise its entries run in order as updates,
    /// each raising its tally by 1, and its result is as under Deliveries."
    pub fn deliver(&mut self, bytes: &[u8]) -> (u32, [u32; 4]) {
        let delivery = match deliveries::read(bytes) {
            Ok(delivery) => delivery,
            Err(number) => return (number, [0; 4]),
        };
        let entries = delivery.entries.into_iter();
        let answers: Vec<u32> = entries.map(|(a, t)| self.update(a, t)).collect();
        (0, deliveries::result(delivery.number, &answers))
    }

    /// "statements and facts are the ledger's sets, kept facts its facts with all that follow, each
    /// support the number of its facts that carry the row", written into tables of these lengths.
    pub fn store(&self, store: &Store) -> Store {
        let each: Vec<Graph> = self
            .facts
            .iter()
            .map(|fact| self.model.carried(&self.statements, *fact))
            .collect();
        let support = |row: Triple| each.iter().filter(|c| c.contains(&row)).count() as u32;
        let kept = self.model.saturation(&self.statements, &self.facts);
        let content = Content {
            statements: self.statements.clone(),
            facts: self.facts.clone(),
            kept: kept.into_iter().map(|row| (row, support(row))).collect(),
        };
        let mut expected = store.clone();
        tables::write(&content, &mut expected);
        expected
    }
}
