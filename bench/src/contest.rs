//! What our library and the programs beside it are all asked to do.

use families::Triple;
pub use peers::{Outcome, Rows};
use std::time::Duration;

/// By which way a question is answered.
#[derive(Clone, Copy, PartialEq)]
pub enum Way {
    Kept,
    Rewritten,
}

impl Way {
    /// What stands above a table of its times.
    pub fn title(self) -> &'static str {
        match self {
            Way::Kept => "The kept way",
            Way::Rewritten => "The rewritten way",
        }
    }
}

/// What an update does with its triple.
#[derive(Clone, Copy, PartialEq)]
pub enum Change {
    Add,
    Withdraw,
}

/// A store that is measured. Times are those of the store itself: not of starting it, of pipes or of reading text.
pub trait Contestant {
    /// Its name in the tables.
    fn name(&self) -> &'static str;

    /// Makes the store empty, loads triples and saturates: how long the last two take.
    fn load(&mut self, statements: &[Triple], facts: &[Triple]) -> Outcome<Duration>;

    /// Updates by one triple after another, all statements or all facts: how long they take together.
    fn update(&mut self, change: Change, triples: &[Triple]) -> Outcome<Duration>;

    /// The same in one go: how long it takes. A store that has no way of its own for that takes one triple after another.
    fn deliver(&mut self, change: Change, triples: &[Triple]) -> Outcome<Duration> {
        self.update(change, triples)
    }

    /// Whether the time of updates is that of the first, times their number.
    fn scales(&self, _: Change) -> bool {
        false
    }

    /// The kept facts, each with its support where the store counts them.
    fn kept(&mut self) -> Outcome<Rows>;

    /// The rows of a question.
    fn rows(&mut self, way: Way, question: &[u32]) -> Outcome<Rows>;

    /// Answers a question so many times: how long each time takes.
    fn times(&mut self, way: Way, question: &[u32], runs: usize) -> Outcome<Vec<Duration>>;
}
