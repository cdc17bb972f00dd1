//! A program that is driven by lines on its standard input and answers by lines on its standard output.

use std::io::{BufRead, BufReader, Write};
use std::process::{Child, ChildStdin, ChildStdout, Command, Stdio};
use std::time::Duration;

/// A result, or the words that say why there is none.
pub type Outcome<T> = Result<T, String>;

/// Rows of words.
pub type Rows = Vec<Vec<u32>>;

/// The running program.
pub struct Pipe {
    name: &'static str,
    child: Child,
    input: Option<ChildStdin>,
    output: BufReader<ChildStdout>,
}

/// An answer: rows of words, and what stands behind "ok" on the last line.
pub struct Answer {
    pub rows: Rows,
    pub last: String,
}

impl Answer {
    /// The numbers on the last line.
    fn numbers(&self) -> impl Iterator<Item = u64> + '_ {
        let words = self.last.split_whitespace();
        words.filter_map(|word| word.parse().ok())
    }

    /// The numbers on the last line, as times in nanoseconds.
    pub fn times(&self) -> Vec<Duration> {
        self.numbers().map(Duration::from_nanos).collect()
    }

    /// The first number on the last line as a count, and the others as times in nanoseconds.
    pub fn counted_times(&self) -> (usize, Vec<Duration>) {
        let mut numbers = self.numbers();
        let count = numbers.next().unwrap_or_default();
        (count as usize, numbers.map(Duration::from_nanos).collect())
    }
}

impl Pipe {
    /// Starts a program.
    pub fn start(name: &'static str, command: &mut Command) -> Outcome<Pipe> {
        let started = command.stdin(Stdio::piped()).stdout(Stdio::piped()).spawn();
        let mut child = started.map_err(|error| format!("{name} could not be started: {error}"))?;
        let (input, output) = (child.stdin.take(), child.stdout.take().expect("a pipe"));
        Ok(Pipe {
            name,
            child,
            input,
            output: BufReader::new(output),
        })
    }

    /// Sends a request, whole lines, and reads the answer up to its last line, which starts with "ok".
    pub fn call(&mut self, request: &str) -> Outcome<Answer> {
        let sent = self
            .input
            .as_mut()
            .expect("a running program")
            .write_all(request.as_bytes());
        sent.map_err(|error| self.fault(request, &error.to_string()))?;
        let mut rows = Rows::new();
        loop {
            let mut line = String::new();
            match self.output.read_line(&mut line) {
                Ok(0) => return Err(self.fault(request, "it ended")),
                Err(error) => return Err(self.fault(request, &error.to_string())),
                Ok(_) => {}
            }
            if let Some(rest) = line.strip_prefix("ok") {
                return Ok(Answer {
                    rows,
                    last: rest.trim().to_string(),
                });
            }
            let row: Result<Vec<u32>, _> = line.split_whitespace().map(str::parse).collect();
            rows.push(row.map_err(|_| self.fault(request, &line))?);
        }
    }

    /// What is said where the program did not answer a request.
    fn fault(&self, request: &str, what: &str) -> String {
        let first: String = request
            .lines()
            .next()
            .unwrap_or_default()
            .chars()
            .take(200)
            .collect();
        format!("{}: {}, when asked: {first}", self.name, what.trim())
    }

    /// Sends a request whose answer is one time in nanoseconds.
    pub fn time(&mut self, request: &str) -> Outcome<Duration> {
        let times = self.call(request)?.times();
        times
            .first()
            .copied()
            .ok_or_else(|| self.fault(request, "no time"))
    }

    /// Has a server of the line protocol load triples into an empty store, and work out what holds: how long the two take.
    pub fn load(&mut self, triples: &[[u32; 3]]) -> Outcome<Duration> {
        self.call("clear\n")?;
        Ok(self.time(&with_triples("add", triples))? + self.time("work\n")?)
    }
}

/// A program ends when its input does.
impl Drop for Pipe {
    fn drop(&mut self) {
        self.input = None;
        let _ = self.child.wait();
    }
}

/// A command with the lines of its triples.
pub fn with_triples(command: &str, triples: &[[u32; 3]]) -> String {
    let mut text = format!("{command} {}\n", triples.len());
    text.extend(
        triples
            .iter()
            .map(|t| format!("{} {} {}\n", t[0], t[1], t[2])),
    );
    text
}
