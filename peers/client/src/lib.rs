//! Clients of the stores, readers and writers in other programs (peers/), for the trial and the bench.

mod jena;
mod pipe;
pub mod rapper;
mod rewriting;

pub use jena::{Jena, Parts, Question};
pub use pipe::{with_triples, Answer, Outcome, Pipe, Rows};
pub use rewriting::Rewriter;
