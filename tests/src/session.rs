//! Commands run on library and model side by side, everything compared after each.

use crate::counts::Counts;
use crate::fence::Memory;
use crate::library::Library;
use crate::model::ledger::Ledger;
use crate::model::questions::write_rows;
use crate::model::{Model, IDLE};
use crate::outcome::Outcome;
use crate::peer::Peer;
use crate::script::{self, Call, Command, Expected};
use crate::store::{Store, Table};
use std::fmt;
use std::fs::File;
use std::io::Write;
use std::path::PathBuf;

/// A difference, and the commands up to it.
pub struct Failure {
    pub what: String,
    pub script: Vec<Command>,
}

/// The bytes of a file that a difference shows, at most.
const SHOWN: usize = 2000;

/// What all sessions share.
pub struct Harness {
    pub model: Model,
    /// Whether the model judges each call; it is too slow for a large store.
    pub model_judges: bool,
    /// Another program that judges the accepted questions to grown stores, where one is wanted.
    pub peer: Option<Peer>,
    pub library: Library,
    pub counts: Counts,
    /// A file that gets each command of the present session before it is run.
    pub trace: Option<PathBuf>,
}

impl Harness {
    pub fn new(model: Model, memory: Memory) -> Harness {
        Harness {
            model,
            model_judges: true,
            peer: None,
            library: Library::new(memory),
            counts: Counts::new(),
            trace: None,
        }
    }

    /// Runs a script by itself.
    pub fn replay(&mut self, script: &[Command]) -> Result<(), Failure> {
        let mut session = Session::new(self);
        script.iter().try_for_each(|c| session.run(c.clone()))
    }

    /// Runs a script that is known to be one.
    pub fn replay_text(&mut self, text: &str) -> Result<(), Failure> {
        let script = script::parse(text).expect("a case is no script");
        self.replay(&script)
    }
}

/// A store, and the commands that made it what it is.
pub struct Session<'a> {
    pub harness: &'a mut Harness,
    pub store: Store,
    pub last: Outcome,
    /// The ledger, where the store was grown from empty.
    ledger: Option<Ledger>,
    script: Vec<Command>,
    trace: Option<File>,
}

impl<'a> Session<'a> {
    pub fn new(harness: &'a mut Harness) -> Session<'a> {
        harness.library.null_when_empty = false;
        harness.library.by_binding = false;
        let trace = harness.trace.as_ref();
        let trace = trace.map(|path| File::create(path).expect("the trace cannot be written"));
        Session {
            harness,
            store: Store::default(),
            last: Outcome::default(),
            ledger: None,
            script: Vec::new(),
            trace,
        }
    }

    /// Runs a command; a difference comes with the script so far.
    pub fn run(&mut self, command: Command) -> Result<(), Failure> {
        self.script.push(command.clone());
        if let Some(file) = &mut self.trace {
            writeln!(file, "{command}").expect("the trace cannot be written");
        }
        self.step(command).map_err(|what| Failure {
            what,
            script: self.script.clone(),
        })
    }

    /// Runs a call.
    pub fn call(&mut self, call: Call) -> Result<(), Failure> {
        self.run(Command::Call(call))
    }

    /// Runs a call of which the papers say the number.
    pub fn expect(&mut self, call: Call, number: u32) -> Result<(), Failure> {
        self.call(call)?;
        self.run(Command::Expect(Expected::Number(number)))
    }

    /// Lends a whole store.
    pub fn lend(&mut self, store: &Store) -> Result<(), Failure> {
        for table in Table::ALL {
            self.run(Command::Lend(table, store.table(table).clone()))?;
        }
        self.run(Command::LendSupports(store.supports.clone()))
    }

    fn step(&mut self, command: Command) -> Result<(), String> {
        match command {
            Command::Empty(lengths) => {
                self.store = Store::empty(lengths);
                // The ledger "never asks 1": tables of rows with no word have none.
                let words = lengths[..3].iter().all(|length| *length > 0);
                self.ledger = words.then(|| Ledger::new(self.harness.model, &self.store));
            }
            Command::Lend(table, words) => {
                *self.store.table_mut(table) = words;
                self.ledger = None;
            }
            Command::LendSupports(words) => {
                self.store.supports = words;
                self.ledger = None;
            }
            Command::LendDictionary(bytes) => self.store.dictionary = bytes,
            Command::Nulls(on) => self.harness.library.null_when_empty = on,
            Command::Binding(on) => self.harness.library.by_binding = on,
            Command::Call(call) => self.compare(&call).map_err(|what| with_file(what, &call))?,
            Command::Expect(expected) => self.check(&expected)?,
        }
        Ok(())
    }

    /// Makes a call on the library, and compares what it gives and leaves with each judge.
    fn compare(&mut self, call: &Call) -> Result<(), String> {
        let before = self.harness.model_judges.then(|| self.store.clone());
        let found = self.harness.library.call(&mut self.store, call)?;
        let answer = (call.kind(), found.number);
        *self.harness.counts.entry(answer).or_default() += 1;
        if let Some(before) = before {
            self.judge_by_model(call, &found, before)?;
        }
        if let (Some(peer), Some(_)) = (&mut self.harness.peer, &self.ledger) {
            if let (Call::Ask(_, question, _), 0) = (call, found.number) {
                peer.judge(&self.store, question, &found)?;
            }
        }
        self.last = found;
        Ok(())
    }

    /// Compares a call's outcome and the store after it with the model and the ledger.
    fn judge_by_model(
        &mut self,
        call: &Call,
        found: &Outcome,
        mut store: Store,
    ) -> Result<(), String> {
        let expected = self.harness.model.call(&mut store, call);
        differ_outcome(found, &expected, "the model")?;
        differ_store(&self.store, &store, "the model")?;
        if let Some(ledger) = &mut self.ledger {
            if let Some(expected) = ledger_call(ledger, call) {
                differ_outcome(found, &expected, "the ledger")?;
                differ_store(&self.store, &ledger.store(&self.store), "the ledger")?;
            }
        }
        Ok(())
    }

    /// Compares the last call with what the papers say of it.
    fn check(&self, expected: &Expected) -> Result<(), String> {
        let papers = "the papers";
        let last = &self.last;
        match expected {
            Expected::Number(number) => {
                differ("the answer", Answer(last.number), Answer(*number), papers)
            }
            Expected::Count(count) => differ("the count", last.count, u64::from(*count), papers),
            Expected::Result(result) => differ_words("the result", &last.result, result, papers),
            Expected::Output(words) => differ_words("the output", &last.output, words, papers),
            Expected::Table(table, words) => {
                differ_words(table.name(), self.store.table(*table), words, papers)
            }
            Expected::Supports(words) => {
                differ_words("supports", &self.store.supports, words, papers)
            }
            Expected::Delivery(bytes) => {
                differ_words("the delivery", &last.delivery, bytes, papers)
            }
            Expected::Lines(bytes) => differ_words("the lines", &last.lines, bytes, papers),
            Expected::Dictionary(bytes) => {
                differ_words("the dictionary", &self.store.dictionary, bytes, papers)
            }
        }
    }
}

impl Model {
    /// What the model says of a call.
    pub fn call(&self, store: &mut Store, call: &Call) -> Outcome {
        match call {
            Call::Add(triple) => Outcome::of(self.update(store, true, *triple)),
            Call::Withdraw(triple) => Outcome::of(self.update(store, false, *triple)),
            Call::Deliver(bytes) => {
                let (number, result) = self.deliver(store, bytes);
                Outcome {
                    number,
                    result,
                    ..Outcome::default()
                }
            }
            Call::Ask(way, question, output) => {
                let width = question.get(1).map_or(1, |m| (*m).max(1) as usize);
                let answer = self.ask(store, *way, question);
                rows_outcome(|words| write_rows(answer, width, words), output.lent())
            }
            Call::Alternatives(atom, output) => {
                let answer = self.alternatives(&store.statements, *atom);
                rows_outcome(|words| write_rows(answer, 3, words), output.lent())
            }
            Call::List(table, order, output) => {
                let answer = self.list(*table, store.table(*table), *order);
                rows_outcome(|words| write_rows(answer, 3, words), output.lent())
            }
            Call::Read(file, output) => {
                let mut delivery = output.lent_bytes();
                let reply = self.read(file, &mut store.dictionary, &mut delivery);
                Outcome::of_reading(reply, delivery)
            }
            Call::Write(table, output) => {
                let mut lines = output.lent_bytes();
                let words = store.table(*table);
                let reply = self.write(*table, words, &store.dictionary, &mut lines);
                Outcome::of_writing(reply, lines)
            }
        }
    }
}

/// The outcome of a call with an output of rows.
fn rows_outcome(write: impl FnOnce(&mut [u32]) -> (u32, u64), mut output: Vec<u32>) -> Outcome {
    let (number, count) = write(&mut output);
    Outcome {
        number,
        count,
        output,
        ..Outcome::default()
    }
}

/// What the ledger says of a call, if it is one that the ledger is fed.
fn ledger_call(ledger: &mut Ledger, call: &Call) -> Option<Outcome> {
    let (number, result) = match call {
        Call::Add(triple) => (ledger.update(true, *triple), [0; 4]),
        Call::Withdraw(triple) => (ledger.update(false, *triple), [0; 4]),
        Call::Deliver(bytes) => ledger.deliver(bytes),
        _ => return None,
    };
    Some(Outcome {
        number,
        result,
        ..Outcome::default()
    })
}

/// A difference, with the text of a file that was read and is not too long.
fn with_file(what: String, call: &Call) -> String {
    match call {
        Call::Read(file, _) if file.len() < SHOWN => {
            format!("{what}\nthe file: {}", file.escape_ascii())
        }
        _ => what,
    }
}

/// An answer's number, as a difference shows it.
#[derive(PartialEq)]
struct Answer(u32);

impl fmt::Display for Answer {
    fn fmt(&self, f: &mut fmt::Formatter<'_>) -> fmt::Result {
        match self.0 {
            IDLE => write!(f, "idle"),
            number => write!(f, "{number}"),
        }
    }
}

fn differ<T>(what: &str, found: T, expected: T, by: &str) -> Result<(), String>
where
    T: PartialEq + fmt::Display,
{
    if found == expected {
        return Ok(());
    }
    Err(format!(
        "{what}: the library gives {found}, {by} {expected}"
    ))
}

fn differ_words<T>(what: &str, found: &[T], expected: &[T], by: &str) -> Result<(), String>
where
    T: Copy + PartialEq + fmt::Display,
{
    if found.len() != expected.len() {
        let (found, expected) = (found.len(), expected.len());
        return Err(format!("{what}: a length of {found}, by {by} {expected}"));
    }
    match found.iter().zip(expected).position(|(f, e)| f != e) {
        None => Ok(()),
        Some(i) => Err(format!(
            "{what}, at {i}: the library gives {}, {by} {}",
            found[i], expected[i]
        )),
    }
}

fn differ_outcome(found: &Outcome, expected: &Outcome, by: &str) -> Result<(), String> {
    differ(
        "the answer",
        Answer(found.number),
        Answer(expected.number),
        by,
    )?;
    differ("the count", found.count, expected.count, by)?;
    differ_words("the result", &found.result, &expected.result, by)?;
    differ_words("the output", &found.output, &expected.output, by)?;
    differ_words("the delivery", &found.delivery, &expected.delivery, by)?;
    differ_words("the lines", &found.lines, &expected.lines, by)
}

fn differ_store(found: &Store, expected: &Store, by: &str) -> Result<(), String> {
    for table in Table::ALL {
        differ_words(table.name(), found.table(table), expected.table(table), by)?;
    }
    differ_words("supports", &found.supports, &expected.supports, by)?;
    differ_words(
        "the dictionary",
        &found.dictionary,
        &expected.dictionary,
        by,
    )
}
