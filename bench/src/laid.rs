//! Files of N-Triples laid where other programs read them.

use crate::contest::Outcome;
use std::path::{Path, PathBuf};
use std::time::Duration;

/// A file where other programs read it, by itself and many times over, and one that is empty.
pub struct Laid {
    pub file: PathBuf,
    pub over: PathBuf,
    pub empty: PathBuf,
    pub copies: usize,
}

impl Laid {
    /// Lays a file out by a name.
    pub fn new(name: &str, text: &str, copies: usize) -> Outcome<Laid> {
        let lay = |part: &str, text: &str| {
            let path = Path::new("target/bench").join(format!("{name}{part}.nt"));
            std::fs::write(&path, text).map(|()| path).map_err(|error| format!("{name}{part}.nt: {error}"))
        };
        Ok(Laid { file: lay("", text)?, over: lay("-over", &text.repeat(copies))?, empty: lay("-empty", "")?, copies })
    }

    /// What a program takes for the file once, from its times for the file many times over and for the empty one.
    pub fn once(&self, over: Duration, empty: Duration) -> Duration {
        over.saturating_sub(empty) / self.copies as u32
    }
}
