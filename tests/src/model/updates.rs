//! Lone updates: questions 1 to 5.

use super::tables::{self, Content};
use super::terms::*;
use super::{Fault, Model, IDLE};
use crate::store::Store;

/// How many rows the statements, facts and kept facts may hold.
#[derive(Clone, Copy)]
pub struct Capacities {
    pub statements: usize,
    pub facts: usize,
    pub kept: usize,
}

impl Capacities {
    /// Those of tables with at least one word each.
    pub fn of(store: &Store) -> Capacities {
        Capacities {
            statements: tables::capacity(store.statements.len(), tables::STATEMENTS),
            facts: tables::capacity(store.facts.len(), tables::FACTS),
            kept: tables::capacity(store.kept.len(), tables::kept_limit(store.supports.len())),
        }
    }
}

/// Question 2, "is it a triple?", then 3, "are a statement's sides allowed?"
pub fn refused_by_form(triple: Triple) -> Option<u32> {
    if !is_triple(triple) {
        Some(2)
    } else if is_statement_property(triple[1]) && !sides_allowed(triple) {
        Some(3)
    } else {
        None
    }
}

impl Model {
    /// An addition or withdrawal on lent tables: 0 applied, 100 idle, or the refusing number.
    pub fn update(&self, store: &mut Store, adding: bool, triple: Triple) -> u32 {
        let Some(mut content) = tables::read(store) else {
            return 1;
        };
        let answer = self.update_content(&mut content, Capacities::of(store), adding, triple);
        if answer == 0 {
            tables::write(&content, store);
        }
        answer
    }

    /// The same on content: questions 2 to 5 in order, and the change when none refuses.
    pub fn update_content(
        &self,
        content: &mut Content,
        capacities: Capacities,
        adding: bool,
        triple: Triple,
    ) -> u32 {
        if let Some(number) = refused_by_form(triple) {
            return number;
        }
        let (table, capacity) = if is_statement_property(triple[1]) {
            (&content.statements, capacities.statements)
        } else {
            (&content.facts, capacities.facts)
        };
        let there = table.contains(&triple);
        // "Adding what is there and withdrawing what is absent are accepted, change no word and
        // answer "idle"".
        if there == adding {
            return IDLE;
        }
        // 4: "is it there already, or is its table below capacity?"
        if adding && table.len() >= capacity {
            return 4;
        }
        if is_statement_property(triple[1]) {
            self.update_statement(content, capacities.kept, adding, triple)
        } else {
            self.update_fact(content, capacities.kept, adding, triple)
        }
    }

    /// "A change of statements makes kept facts and supports those worked out afresh", unless 5:
    /// "will the kept facts fit?"
    fn update_statement(
        &self,
        content: &mut Content,
        kept_capacity: usize,
        adding: bool,
        statement: Triple,
    ) -> u32 {
        let mut statements = content.statements.clone();
        put(&mut statements, adding, statement);
        let kept = self.supports(&statements, &content.facts);
        if kept.len() > kept_capacity {
            return 5;
        }
        content.statements = statements;
        content.kept = kept;
        0
    }

    /// The change of a fact, unless 5: "will the kept facts fit?"
    fn update_fact(
        &self,
        content: &mut Content,
        kept_capacity: usize,
        adding: bool,
        fact: Triple,
    ) -> u32 {
        let carried = self.carried(&content.statements, fact);
        let is_missing = |row: &&Triple| !content.kept.contains_key(*row);
        let missing = carried.iter().filter(is_missing).count();
        if adding && content.kept.len() + missing > kept_capacity {
            return 5;
        }
        put(&mut content.facts, adding, fact);
        self.change_supports(content, &carried, adding, fact);
        0
    }

    /// "Adding a fact raises the support of all it carries by 1, missing rows entering with 1.
    /// Withdrawing lowers by 1 those present, and a row at 0 goes."
    fn change_supports(&self, content: &mut Content, carried: &Graph, adding: bool, fact: Triple) {
        for row in carried {
            let weight = self.weight(&content.statements, carried, *row);
            if adding {
                *content.kept.entry(*row).or_insert(0) += weight;
            } else if let Some(support) = content.kept.get_mut(row) {
                *support = support.saturating_sub(weight);
                if *support == 0 || (self.has(Fault::DropExplicit) && *row == fact) {
                    content.kept.remove(row);
                }
            }
        }
    }
}

/// "An applied addition puts its row into the statements or the facts; an applied withdrawal takes
/// it out; the other rows there remain."
fn put(table: &mut Graph, adding: bool, triple: Triple) {
    if adding {
        table.insert(triple);
    } else {
        table.remove(&triple);
    }
}
