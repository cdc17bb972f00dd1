//! How large a run is.

use std::time::Duration;

/// How much is measured.
pub struct Scale {
    /// The facts of the store for questions and updates.
    pub facts: usize,
    /// The sizes through which a store grows.
    pub sizes: Vec<usize>,
    /// The statements of a chain or a loop of subclasses.
    pub steps: Vec<usize>,
    /// Of how many loads or updates, and of how many answers, a time is the median.
    pub rounds: usize,
    pub runs: usize,
    /// The facts and statements withdrawn and added, and the facts at each size of a growing store.
    pub changed: [usize; 2],
    pub changed_growing: usize,
    /// The lengths through which files of N-Triples grow, of how many readings a time is the least, and how many times over rapper reads
    /// the longest file at once.
    pub lines: Vec<usize>,
    pub readings: usize,
    pub copies: usize,
    /// The rows of tables that are written as N-Triples, with the texts of their dictionaries.
    pub written: Vec<[usize; 2]>,
    /// For how long Jena reads or writes a file again and again, for the compiler inside Java.
    pub read_again: Duration,
}

impl Scale {
    /// What the documents show.
    pub fn full() -> Scale {
        Scale {
            facts: 20_000,
            sizes: vec![5_000, 10_000, 20_000, 40_000, 65_000],
            steps: vec![128, 256, 512],
            rounds: 5,
            runs: 11,
            changed: [1_000, 20],
            changed_growing: 10,
            lines: vec![500, 1_000, 2_500, 5_000],
            readings: 21,
            copies: 50,
            written: vec![[1_000, 1_000], [20_000, 10_000], [262_143, 100_000]],
            read_again: Duration::from_secs(5),
        }
    }

    /// A trial of the program.
    pub fn quick() -> Scale {
        Scale {
            facts: 2_000,
            sizes: vec![500, 1_000, 2_000],
            steps: vec![16, 64],
            rounds: 2,
            runs: 3,
            changed: [100, 4],
            changed_growing: 5,
            lines: vec![50, 500],
            readings: 3,
            copies: 2,
            written: vec![[500, 500], [2_000, 1_000]],
            read_again: Duration::from_millis(200),
        }
    }

    /// The lines of the longest file of N-Triples.
    pub fn most_lines(&self) -> usize {
        *self.lines.last().expect("a length")
    }

    /// The rows of the largest table that is written.
    pub fn most_rows(&self) -> usize {
        self.written.last().expect("a table")[0]
    }
}
