//! Our library among the contestants.

use crate::clock::timed;
use crate::contest::{Change, Contestant, Outcome, Rows, Way};
use families::{Capacities, Delivered, Refusal, Store, Triple, Updated};
use std::time::Duration;
use workload::delivery;

/// The largest number of bytes, and of entries, of a delivery.
pub const DELIVERY_BYTES: usize = 65_536;
const ENTRIES: usize = (DELIVERY_BYTES - 10) / 12;

/// A store with room for as much as document 01 allows, and an output for rows.
pub struct Ours {
    pub store: Store,
    output: Vec<u32>,
}

/// Puts a question to a store by a way.
pub fn ask<'a>(store: &Store, way: Way, question: &[u32], output: &'a mut [u32]) -> Result<families::Rows<'a>, Refusal> {
    match way {
        Way::Kept => store.ask_kept(question, output),
        Way::Rewritten => store.ask_rewritten(question, output),
    }
}

/// The facts that a question by a way is lent.
pub fn lent_facts(store: &Store, way: Way) -> &[u32] {
    match way {
        Way::Kept => &store.kept,
        Way::Rewritten => &store.facts,
    }
}

/// Whether a delivery was accepted and all its entries were applied.
fn is_whole(answer: &Result<Delivered, Refusal>) -> bool {
    answer.is_ok_and(|delivered| delivered.idle == 0 && delivered.refused == 0)
}

/// Whether a triple is a statement.
fn is_statement(t: &Triple) -> bool {
    (2..=5).contains(&t[1])
}

/// A delivery of triples that are all statements or all facts.
fn bytes(change: Change, triples: &[Triple]) -> Vec<u8> {
    let mut sections: [&[Triple]; 4] = [&[]; 4];
    let added = if change == Change::Add { 2 } else { 0 };
    sections[added + usize::from(!triples.iter().all(is_statement))] = triples;
    delivery(sections)
}

impl Ours {
    pub fn new() -> Ours {
        Ours { store: Store::empty(Capacities::MOST), output: vec![0; 2_000_000] }
    }

    /// Runs deliveries, each of which must have all its entries applied: how long they take.
    pub fn run(&mut self, deliveries: &[Vec<u8>]) -> Outcome<Duration> {
        let (time, answers) = timed(|| deliveries.iter().map(|bytes| self.store.deliver(bytes)).collect::<Vec<_>>());
        answers.iter().all(is_whole).then_some(time).ok_or_else(|| format!("a delivery was not applied whole: {answers:?}"))
    }

    /// As many words of the output as a question's rows need, so that its time is not that of clearing a large output.
    fn room(&mut self, way: Way, question: &[u32]) -> Outcome<usize> {
        let rows = ask(&self.store, way, question, &mut self.output);
        rows.map(|rows| rows.len() * question[1] as usize).map_err(|refusal| format!("a question was {refusal}"))
    }
}

impl Contestant for Ours {
    fn name(&self) -> &'static str {
        "our library"
    }

    /// By deliveries, the statements first: an added statement has all kept facts worked out afresh.
    fn load(&mut self, statements: &[Triple], facts: &[Triple]) -> Outcome<Duration> {
        self.store = Store::empty(Capacities::MOST);
        let mut deliveries = vec![bytes(Change::Add, statements)];
        deliveries.extend(facts.chunks(ENTRIES).map(|part| bytes(Change::Add, part)));
        self.run(&deliveries)
    }

    fn update(&mut self, change: Change, triples: &[Triple]) -> Outcome<Duration> {
        let store = &mut self.store;
        let one = |&t: &Triple| if change == Change::Add { store.add(t) } else { store.withdraw(t) };
        let (time, answers) = timed(|| triples.iter().map(one).collect::<Vec<_>>());
        answers.iter().all(|&answer| answer == Ok(Updated::Applied)).then_some(time).ok_or_else(|| format!("updates were not applied: {answers:?}"))
    }

    fn deliver(&mut self, change: Change, triples: &[Triple]) -> Outcome<Duration> {
        self.run(&[bytes(change, triples)])
    }

    fn kept(&mut self) -> Outcome<Rows> {
        let rows = self.store.kept[1..].chunks(3).zip(&self.store.supports).take(self.store.kept[0] as usize);
        Ok(rows.map(|(row, &support)| [row, &[support as u32]].concat()).collect())
    }

    fn rows(&mut self, way: Way, question: &[u32]) -> Outcome<Rows> {
        let room = self.room(way, question)?;
        Ok(self.output[..room].chunks(question[1] as usize).map(<[u32]>::to_vec).collect())
    }

    fn times(&mut self, way: Way, question: &[u32], runs: usize) -> Outcome<Vec<Duration>> {
        let room = self.room(way, question)?;
        Ok((0..runs).map(|_| timed(|| ask(&self.store, way, question, &mut self.output[..room]).is_ok()).0).collect())
    }
}
