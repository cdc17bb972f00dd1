//! Programs that read a file of N-Triples and write it as N-Triples: raptor's rapper and serd's serdi.

use crate::pipe::Outcome;
use std::path::Path;
use std::process::{Command, Output, Stdio};

/// A program that writes what it reads.
#[derive(Clone, Copy)]
pub enum Rewriter {
    Rapper,
    Serdi,
}

impl Rewriter {
    /// The program's name.
    pub fn name(self) -> &'static str {
        match self {
            Rewriter::Rapper => "rapper",
            Rewriter::Serdi => "serdi",
        }
    }

    /// Runs the program on a file, its output going somewhere.
    fn run(self, file: &Path, output: Stdio) -> Outcome<Output> {
        let mut command = Command::new(self.name());
        command.args(["-i", "ntriples", "-o", "ntriples"]).arg(file);
        let run = command.stdout(output).output();
        let output = run.map_err(|error| format!("{} could not be started: {error}", self.name()))?;
        let said = String::from_utf8_lossy(&output.stderr);
        let refused = format!("{} does not write {}: {said}", self.name(), file.display());
        output.status.success().then_some(output).ok_or(refused)
    }

    /// What the program writes of a file.
    pub fn text(self, file: &Path) -> Outcome<Vec<u8>> {
        Ok(self.run(file, Stdio::piped())?.stdout)
    }

    /// Has the program write a file to where nothing is kept.
    pub fn write(self, file: &Path) -> Outcome<()> {
        self.run(file, Stdio::null()).map(|_| ())
    }
}
