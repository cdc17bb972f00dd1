//! Apache Jena: the server of peers/jena, asked by lines.

use crate::pipe::{with_triples, Outcome, Pipe, Rows};
use std::path::Path;
use std::process::Command;
use std::time::Duration;

/// What starts the server, as `make jena` writes it; its paths are those of the repository.
const ARGUMENTS: &str = "@target/jena/server";

/// The running server.
pub struct Jena {
    pipe: Pipe,
}

/// A question as the server takes it.
pub enum Question {
    /// The words of a question, which is put to all that holds.
    Words(Vec<u32>),
    /// SPARQL among the explicit triples, where w and a word stand for a node.
    Explicit(String),
}

impl Question {
    /// The end of a command's name, and the question as the command has it.
    fn parts(&self) -> (&'static str, String) {
        match self {
            Question::Words(words) => ("", joined(words)),
            Question::Explicit(text) => ("-explicit", text.clone()),
        }
    }
}

/// What is counted of a file of N-Triples: its triples, or its distinct terms, each of which gets a number.
#[derive(Clone, Copy, PartialEq)]
pub enum Parts {
    Triples,
    Terms,
}

impl Parts {
    /// The command that counts them.
    fn command(self) -> &'static str {
        match self {
            Parts::Triples => "time-read",
            Parts::Terms => "time-number",
        }
    }
}

impl Jena {
    /// Starts the server, with an empty store.
    pub fn start() -> Outcome<Jena> {
        let pipe = Pipe::start("Jena", Command::new("java").arg(ARGUMENTS))?;
        Ok(Jena { pipe })
    }

    /// Takes a file of rules, and an empty store.
    pub fn use_rules(&mut self, rules: &Path) -> Outcome<()> {
        self.pipe.call(&format!("rules {}\n", rules.display()))?;
        Ok(())
    }

    /// Makes these the explicit triples, and works out what holds: how long the two take.
    pub fn load(&mut self, triples: &[[u32; 3]]) -> Outcome<Duration> {
        self.pipe.load(triples)
    }

    /// Puts triples in, what holds kept up to date: how long that takes.
    pub fn add(&mut self, triples: &[[u32; 3]]) -> Outcome<Duration> {
        self.pipe.time(&with_triples("add", triples))
    }

    /// Takes triples out and works out afresh what holds: how long the two take. Jena's own upkeep
    /// of a deletion loses rows.
    pub fn withdraw(&mut self, triples: &[[u32; 3]]) -> Outcome<Duration> {
        let withdrawn = self.pipe.time(&with_triples("withdraw", triples))?;
        Ok(withdrawn + self.pipe.time("work\n")?)
    }

    /// The facts that hold, ascending. The server lists one twice that followed before it became
    /// explicit.
    pub fn facts(&mut self) -> Outcome<Rows> {
        let mut rows = self.pipe.call("facts\n")?.rows;
        rows.sort();
        rows.dedup();
        Ok(rows)
    }

    /// The rows of a question, in Jena's order.
    pub fn ask(&mut self, question: &Question) -> Outcome<Rows> {
        let (end, text) = question.parts();
        Ok(self.pipe.call(&format!("ask{end} {text}\n"))?.rows)
    }

    /// Answers a question so many times: how long each time takes.
    pub fn times(&mut self, question: &Question, runs: usize) -> Outcome<Vec<Duration>> {
        let (end, text) = question.parts();
        let answer = self.pipe.call(&format!("time{end} {runs} {text}\n"))?;
        Ok(answer.counted_times().1)
    }

    /// Reads a file of N-Triples, and writes its triples to another, in file order.
    pub fn read(&mut self, file: &Path, written: &Path) -> Outcome<()> {
        let request = format!("read {} {}\n", file.display(), written.display());
        self.pipe.call(&request)?;
        Ok(())
    }

    /// Works out what holds by a file of N-Triples alone, and writes the facts of it to another, in
    /// Jena's order.
    pub fn hold(&mut self, file: &Path, written: &Path) -> Outcome<()> {
        let request = format!("hold {} {}\n", file.display(), written.display());
        self.pipe.call(&request)?;
        Ok(())
    }

    /// Reads a file of N-Triples so many times, from memory: how many of its parts it has, and how long
    /// each time takes.
    pub fn read_times(
        &mut self,
        parts: Parts,
        file: &Path,
        runs: usize,
    ) -> Outcome<(usize, Vec<Duration>)> {
        let request = format!("{} {runs} {}\n", parts.command(), file.display());
        Ok(self.pipe.call(&request)?.counted_times())
    }

    /// Reads a file of N-Triples into a graph, and writes that as N-Triples so many times, to memory: how
    /// many bytes it writes, and how long each time takes.
    pub fn write_times(&mut self, file: &Path, runs: usize) -> Outcome<(usize, Vec<Duration>)> {
        let request = format!("time-write {runs} {}\n", file.display());
        Ok(self.pipe.call(&request)?.counted_times())
    }

    /// The SPARQL text that Jena is given for the words of a question.
    pub fn text(&mut self, words: &[u32]) -> Outcome<String> {
        Ok(self.pipe.call(&format!("text {}\n", joined(words)))?.last)
    }
}

/// Words with a space between them.
fn joined(words: &[u32]) -> String {
    let words: Vec<String> = words.iter().map(u32::to_string).collect();
    words.join(" ")
}
