//! The family store from Rust.
//!
//! A [`Store`] holds the statements of a schema (subclasses, subproperties, domains, ranges), the
//! explicit facts, and the facts kept with all that follow. It is four tables of words; document 01
//! of the project and docs/STORE.md say what stands in them, what follows from what, and how
//! questions and deliveries are laid out. The work is done by a library that is proved to do it, or
//! to refuse by a [`Refusal`], on any words and bytes; this crate lends the tables to it, and has no
//! dependency.
//!
//! ```
//! use families::{Capacities, Store, Updated};
//!
//! let mut store = Store::empty(Capacities { statements: 512, facts: 1024, kept: 4096 });
//! // 16 is a subclass of 17, and 32 is of type 16.
//! assert_eq!(store.add([16, 2, 17]), Ok(Updated::Applied));
//! assert_eq!(store.add([32, 1, 16]), Ok(Updated::Applied));
//! // One atom and one head variable: which v0 is of type 17?
//! let question = [1, 1, 0xC000_0000, 1, 17, 0xC000_0000];
//! let mut output = [0; 8];
//! let rows: Vec<&[u32]> = store.ask_kept(&question, &mut output)?.collect();
//! assert_eq!(rows, [[32]]);
//! # Ok::<(), families::Refusal>(())
//! ```
//!
//! Products that come as N-Triples are read by [`read_ntriples`] into a delivery, which
//! [`Store::deliver`] takes; what a store holds is written as N-Triples by [`Store::write_ntriples`].
//!
//! A call needs up to some 0.8 MB of stack: a thread that makes calls should have 2 MB, as Rust
//! gives by default.

mod reading;
mod refusal;
mod store;
pub mod sys;

pub use reading::read_ntriples;
pub use refusal::Refusal;
pub use store::{Borrowed, Capacities, Delivered, Order, Rows, Store, Table, Triple, Updated};
