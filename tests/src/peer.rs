//! Answers and kept facts compared with those of Apache Jena.

use crate::model::questions::read_question;
use crate::model::terms::*;
use crate::outcome::Outcome;
use crate::store::{rows_of, Store};
use peers::{Jena, Question, Rows};
use std::fmt;
use std::path::Path;

/// The rows of each side that a difference shows.
const SHOWN: usize = 20;

/// Jena, what it was told last, and what has been compared.
pub struct Peer {
    jena: Jena,
    /// The words of the statements and facts whose triples Jena has.
    told: [Vec<u32>; 2],
    pub seen: Seen,
}

/// What has been compared.
#[derive(Default)]
pub struct Seen {
    stores: u64,
    kept_rows: u64,
    /// Answers by the number of the question's atoms.
    atoms: [u64; 7],
    with_rows: u64,
    rows: u64,
    statement_atoms: u64,
    repeated: u64,
    unconnected: u64,
}

impl Peer {
    /// Starts Jena.
    pub fn start() -> Peer {
        let started = Jena::start();
        let jena = started.unwrap_or_else(|words| panic!("{words}; `make jena` sets it up"));
        Peer {
            jena,
            told: Default::default(),
            seen: Seen::default(),
        }
    }

    /// Compares an accepted question's rows, and the kept facts where the store is a new one.
    pub fn judge(
        &mut self,
        store: &Store,
        question: &[u32],
        found: &Outcome,
    ) -> Result<(), String> {
        self.tell(store)?;
        let width = question[1] as usize;
        let rows = found.output.chunks(width).take(found.count as usize);
        let ours: Rows = rows.map(<[u32]>::to_vec).collect();
        let text = answered(self.jena.text(question));
        if !ours.windows(2).all(|pair| pair[0] < pair[1]) {
            return Err(format!(
                "{text}\nthe library's rows are not ascending and distinct"
            ));
        }
        let theirs = answered(self.jena.ask(&Question::Words(question.to_vec())));
        same(&text, &ours, theirs)?;
        self.seen.note(question, ours.len());
        Ok(())
    }

    /// Gives Jena the explicit triples of the store, unless it has them, and compares the facts that
    /// hold with the kept ones.
    fn tell(&mut self, store: &Store) -> Result<(), String> {
        let explicit = [&store.statements, &store.facts];
        if self.told.each_ref() == explicit {
            return Ok(());
        }
        self.told = Default::default();
        let triples: Vec<Triple> = explicit.into_iter().flat_map(|t| rows_of(t)).collect();
        let kept: Rows = rows_of(&store.kept).map(|row| row.to_vec()).collect();
        answered(self.jena.load(&triples));
        same("the facts that hold", &kept, answered(self.jena.facts()))?;
        self.told = explicit.map(Vec::clone);
        self.seen.stores += 1;
        self.seen.kept_rows += kept.len() as u64;
        Ok(())
    }

    /// Lets Jena work out what holds by a file of N-Triples, and write the facts of it to another.
    pub fn hold(&mut self, file: &Path, written: &Path) {
        answered(self.jena.hold(file, written));
    }

    /// Gives Jena a file of rules, and forgets what was told and compared before.
    pub fn use_rules(&mut self, rules: &Path) {
        answered(self.jena.use_rules(rules));
        self.told = Default::default();
        self.seen = Seen::default();
    }
}

/// What Jena answered; a trial in which it did not is none.
fn answered<T>(answer: Result<T, String>) -> T {
    answer.unwrap_or_else(|words| panic!("{words}"))
}

/// Compares the library's rows, which are ascending, with Jena's, as sets.
fn same(what: &str, ours: &Rows, mut theirs: Rows) -> Result<(), String> {
    theirs.sort();
    theirs.dedup();
    if *ours == theirs {
        return Ok(());
    }
    Err(format!(
        "{what}\nthe library: {} rows, Jena: {}\nonly the library: {}\nonly Jena: {}",
        ours.len(),
        theirs.len(),
        missing(&theirs, ours),
        missing(ours, &theirs)
    ))
}

/// Rows that are among others and not among these, as many as a difference shows.
fn missing(these: &Rows, others: &Rows) -> String {
    let only = others
        .iter()
        .filter(|row| these.binary_search(row).is_err());
    let shown: Vec<String> = only.take(SHOWN).map(|row| format!("{row:?}")).collect();
    shown.join(" ")
}

impl Seen {
    /// Notes an answer of so many rows.
    fn note(&mut self, words: &[u32], rows: usize) {
        let question =
            read_question(words).unwrap_or_else(|_| panic!("an accepted question is none"));
        let (atoms, mut head) = (question.atoms, question.head);
        self.atoms[atoms.len()] += 1;
        self.rows += rows as u64;
        self.with_rows += u64::from(rows > 0);
        self.statement_atoms += u64::from(atoms.iter().any(|a| is_statement_property(a[1])));
        self.unconnected += u64::from(!connected(&atoms));
        head.sort();
        self.repeated += u64::from(head.windows(2).any(|pair| pair[0] == pair[1]));
    }

    /// Answers compared.
    pub fn answers(&self) -> u64 {
        self.atoms.iter().sum()
    }
}

/// Whether variables lead from the first atom to each other one.
fn connected(atoms: &[Triple]) -> bool {
    let share = |a: &Triple, b: &Triple| a.iter().any(|w| is_variable(*w) && b.contains(w));
    let (mut reached, mut others) = (vec![atoms[0]], atoms[1..].to_vec());
    while let Some(i) = others
        .iter()
        .position(|a| reached.iter().any(|b| share(a, b)))
    {
        reached.push(others.remove(i));
    }
    others.is_empty()
}

impl fmt::Display for Seen {
    fn fmt(&self, f: &mut fmt::Formatter<'_>) -> fmt::Result {
        let (stores, kept, rows) = (self.stores, self.kept_rows, self.rows);
        write!(
            f,
            "{stores} states of stores with {kept} kept rows, {} answers with {rows} rows: ",
            self.answers()
        )?;
        for (n, answers) in self.atoms.iter().enumerate().skip(1) {
            write!(f, "{n} atoms {answers}, ")?;
        }
        let (some, statements) = (self.with_rows, self.statement_atoms);
        let (repeated, unconnected) = (self.repeated, self.unconnected);
        write!(f, "some row {some}, a statement atom {statements}, ")?;
        write!(
            f,
            "a head variable twice {repeated}, unconnected atoms {unconnected}"
        )
    }
}
