//! Readers of N-Triples in other programs: Apache Jena's (peers/jena) and raptor's.

use crate::clock::{least, timed};
use crate::contest::Outcome;
use crate::laid::Laid;
use crate::scale::Scale;
use peers::{rapper, Parts};
use std::path::Path;
use std::time::Duration;

/// What our library finds in a file: its triples, and their distinct terms.
pub struct Found {
    pub triples: usize,
    pub terms: usize,
}

/// A reader of N-Triples in another program.
pub trait Reader {
    /// What it does, in the tables.
    fn name(&self) -> &'static str;

    /// Reads a file again and again: the least time of one reading. It must find what our library does.
    fn time(&mut self, scale: &Scale, laid: &Laid, found: &Found) -> Outcome<Duration>;
}

/// Starts the readers of a peer, which may have none.
pub fn start(peer: &str) -> Outcome<Vec<Box<dyn Reader>>> {
    let jena = |parts| Ok(Box::new(Jena { client: peers::Jena::start()?, parts }) as Box<dyn Reader>);
    match peer {
        "jena" => [Parts::Triples, Parts::Terms].into_iter().map(jena).collect(),
        "rapper" => Ok(vec![Box::new(Rapper)]),
        _ => Ok(vec![]),
    }
}

/// Whether a reader found as much as our library.
fn same(reader: &dyn Reader, ours: usize, theirs: usize) -> Outcome<()> {
    let differ = || format!("{}: {theirs} found, by our library {ours}", reader.name());
    (ours == theirs).then_some(()).ok_or_else(differ)
}

/// A Jena that counts the triples of a file, or numbers its terms.
struct Jena {
    client: peers::Jena,
    parts: Parts,
}

impl Reader for Jena {
    fn name(&self) -> &'static str {
        match self.parts {
            Parts::Triples => "Jena, triples counted",
            Parts::Terms => "Jena, terms numbered",
        }
    }

    fn time(&mut self, scale: &Scale, laid: &Laid, found: &Found) -> Outcome<Duration> {
        let expected = if self.parts == Parts::Triples { found.triples } else { found.terms };
        let mut all = Vec::new();
        while all.iter().sum::<Duration>() < scale.read_again {
            let (count, times) = self.client.read_times(self.parts, &laid.file, scale.readings)?;
            same(self, expected, count)?;
            all.extend(times);
        }
        Ok(least(all))
    }
}

/// Raptor's program rapper, which counts triples.
struct Rapper;

impl Rapper {
    /// The least time of so many runs on a file, which must have so many triples.
    fn run(&self, runs: usize, file: &Path, triples: usize) -> Outcome<Duration> {
        let mut times = Vec::new();
        for _ in 0..runs {
            let (time, count) = timed(|| rapper::count_triples(file));
            same(self, triples, count?)?;
            times.push(time);
        }
        Ok(least(times))
    }
}

impl Reader for Rapper {
    fn name(&self) -> &'static str {
        "rapper, triples counted"
    }

    fn time(&mut self, scale: &Scale, laid: &Laid, found: &Found) -> Outcome<Duration> {
        let all = self.run(scale.rounds, &laid.over, laid.copies * found.triples)?;
        let empty = self.run(scale.rounds, &laid.empty, 0)?;
        Ok(laid.once(all, empty))
    }
}
