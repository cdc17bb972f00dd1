//! An independent model of the store, written from documents 01 and 02 alone, and of the reading and
//! writing of N-Triples, written from W3C's grammar and document 02.
//!
//! Quoted sentences are those of the documents. The model is naive on purpose: sets, fixpoints and joins
//! over everything, so that it shares no algorithm with the library.

pub mod alternatives;
mod closure;
pub mod deliveries;
pub mod dictionary;
mod faults;
pub mod ledger;
pub mod listings;
pub mod ntriples;
pub mod questions;
pub mod rules;
pub mod tables;
pub mod terms;
pub mod updates;
pub mod writing;

pub use faults::Fault;

/// The answer of an update that changed nothing, as the exported library gives it.
pub const IDLE: u32 = 100;

/// The model, with a deliberate fault planted where one is wanted.
#[derive(Clone, Copy, Default)]
pub struct Model {
    pub fault: Option<Fault>,
}

impl Model {
    /// Whether this fault is planted.
    pub fn has(&self, fault: Fault) -> bool {
        self.fault == Some(fault)
    }
}
