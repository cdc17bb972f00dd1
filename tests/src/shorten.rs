//! Failing scripts made shorter: commands are left out, and then lines and bytes of the files read.

use crate::script::{Call, Command};
use crate::session::{Failure, Harness};
use std::ops::Range;
use std::time::{Duration, Instant};

/// How long a failing script may be shortened.
const SHORTENING: Duration = Duration::from_secs(20);

/// Leaves out of a failing script what its failure does not need, for some time.
pub fn shortened(harness: &mut Harness, failure: Failure) -> Failure {
    let mut search = Search {
        harness,
        shortest: failure,
        start: Instant::now(),
    };
    search.leave_out_commands();
    for at in 0..search.shortest.script.len() {
        search.leave_out_parts(at, split_lines);
        for length in [64, 16, 4, 1] {
            search.leave_out_parts(at, |file| split_evenly(file, length));
        }
    }
    search.shortest
}

/// The shortest failing script so far.
struct Search<'a> {
    harness: &'a mut Harness,
    shortest: Failure,
    start: Instant,
}

impl Search<'_> {
    /// Takes a script over where it fails too.
    fn attempt(&mut self, script: Vec<Command>) {
        if self.start.elapsed() < SHORTENING {
            if let Err(shorter) = self.harness.replay(&script) {
                self.shortest = shorter;
            }
        }
    }

    /// Leaves out each command, from the last on.
    fn leave_out_commands(&mut self) {
        for i in (0..self.shortest.script.len()).rev() {
            let mut script = self.shortest.script.clone();
            if i < script.len() {
                script.remove(i);
                self.attempt(script);
            }
        }
    }

    /// Leaves out each part of the file that a command reads, from the last on.
    fn leave_out_parts(&mut self, at: usize, parts: impl Fn(&[u8]) -> Vec<Range<usize>>) {
        let Some(file) = file_of(&self.shortest.script, at) else {
            return;
        };
        for part in parts(file).into_iter().rev() {
            let mut script = self.shortest.script.clone();
            if let Some(Command::Call(Call::Read(file, _))) = script.get_mut(at) {
                file.drain(part);
                self.attempt(script);
            }
        }
    }
}

/// The file that a command of a script reads.
fn file_of(script: &[Command], at: usize) -> Option<&[u8]> {
    match script.get(at) {
        Some(Command::Call(Call::Read(file, _))) => Some(file),
        _ => None,
    }
}

/// The lines of a file, each with its end.
fn split_lines(file: &[u8]) -> Vec<Range<usize>> {
    let mut start = 0;
    let lines = file.split_inclusive(|byte| *byte == b'\n');
    lines
        .map(|line| {
            let from = start;
            start += line.len();
            from..start
        })
        .collect()
}

/// Parts of a file of so many bytes each.
fn split_evenly(file: &[u8], length: usize) -> Vec<Range<usize>> {
    let starts = (0..file.len()).step_by(length);
    starts
        .map(|from| from..file.len().min(from + length))
        .collect()
}
