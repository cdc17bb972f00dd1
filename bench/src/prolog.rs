//! SWI-Prolog (peers/prolog). A question is a clause whose goals call the rows of the store; the rewritten way has a disjunction over the
//! alternatives in place of each atom. Both ways match closed statements, which the store has as clauses and makes anew when statements
//! change.

use crate::contest::{Change, Contestant, Outcome, Rows, Way};
use crate::rewriting::{variable, Atom, Question, Rewriter};
use families::Triple;
use peers::{with_triples, Pipe};
use std::process::Command;
use std::time::Duration;

pub struct Prolog {
    pipe: Pipe,
    rewriter: Rewriter,
}

impl Prolog {
    /// Starts the program.
    pub fn start() -> Outcome<Box<dyn Contestant>> {
        let pipe = Pipe::start("SWI-Prolog", Command::new("swipl").args(["-q", "peers/prolog/server.pl"]))?;
        Ok(Box::new(Prolog { pipe, rewriter: Rewriter::new() }))
    }

    /// A question as a clause.
    fn clause(&self, way: Way, question: &[u32]) -> Outcome<String> {
        Ok(clause(way, &self.rewriter.question(question)?))
    }
}

/// A word as it stands in a goal.
fn term(word: u32) -> String {
    variable(word).map_or(word.to_string(), |n| format!("V{n}"))
}

/// A question as a clause. An atom that binds nothing new is asked once.
fn clause(way: Way, question: &Question) -> String {
    let mut bound: Vec<u32> = Vec::new();
    let mut goals = Vec::new();
    for (i, atom) in question.atoms.iter().enumerate() {
        let new = atom.variables().iter().any(|v| !bound.contains(v));
        let goal = goal(i, way, atom, &bound);
        goals.push(if new { goal } else { format!("once({goal})") });
        bound.extend(atom.variables());
    }
    let head: Vec<String> = question.head.iter().map(|&v| term(v)).collect();
    format!("r({}) :- {}", head.join(","), goals.join(","))
}

/// The i-th atom as a goal, where some variables are bound.
fn goal(i: usize, way: Way, atom: &Atom, bound: &[u32]) -> String {
    let [s, p, o] = atom.words.map(term);
    let mut goals = Vec::new();
    let [of_statements, of_facts] = atom.matches();
    if of_statements {
        goals.push(format!("store:stated({s},{p},{o})"));
    }
    if of_facts {
        goals.push(rows(i, if way == Way::Kept { 'k' } else { 'f' }, atom));
    }
    if way == Way::Rewritten {
        let typed = if variable(atom.words[1]).is_some() { format!("{p}=1,") } else { String::new() };
        let shapes = [
            (typed.as_str(), "", 2, format!("f1({s},Source{i})")),
            (typed.as_str(), "f", 2, format!("call(Source{i},{s},_)")),
            (typed.as_str(), "f", 2, format!("call(Source{i},_,{s}),{s}<0x80000000")),
            ("", "f", 1, format!("call(Source{i},{s},{o})")),
        ];
        for (pairs, (typed, prefix, place, call)) in atom.alternatives.iter().zip(shapes).filter(|(pairs, _)| !pairs.is_empty()) {
            let target = atom.words[place];
            let known = variable(target).is_none() || bound.contains(&target);
            goals.push(format!("{typed}{}", alternatives(i, pairs, prefix, &term(target), known, &call)));
        }
    }
    format!("({})", goals.join(";"))
}

/// The rows of an atom's property, explicit (f) or kept (k); where it is a variable, of each that has rows.
fn rows(i: usize, kind: char, atom: &Atom) -> String {
    let [s, p, o] = atom.words.map(term);
    match variable(atom.words[1]) {
        None => format!("{kind}{p}({s},{o})"),
        Some(_) => format!("store:name({kind},{p},Name{i}),call(Name{i},{s},{o})"),
    }
}

/// Alternatives as a goal: those of a known target are tried one by one, else each source once for all its targets.
fn alternatives(i: usize, pairs: &[[u32; 2]], prefix: &str, target: &str, known: bool, call: &str) -> String {
    if known {
        let list: Vec<String> = pairs.iter().map(|[source, target]| format!("{prefix}{source}-{target}")).collect();
        return format!("member(Source{i}-{target},[{}]),{call}", list.join(","));
    }
    let targets = |of: &[[u32; 2]]| of.iter().map(|pair| pair[1].to_string()).collect::<Vec<_>>().join(",");
    let list: Vec<String> = pairs.chunk_by(|a, b| a[0] == b[0]).map(|of| format!("{prefix}{}-[{}]", of[0][0], targets(of))).collect();
    format!("member(Source{i}-Targets{i},[{}]),{call},member({target},Targets{i})", list.join(","))
}

impl Contestant for Prolog {
    fn name(&self) -> &'static str {
        "SWI-Prolog"
    }

    fn load(&mut self, statements: &[Triple], facts: &[Triple]) -> Outcome<Duration> {
        self.rewriter.load(statements)?;
        self.pipe.load(&[statements, facts].concat())
    }

    fn update(&mut self, change: Change, triples: &[Triple]) -> Outcome<Duration> {
        let command = if change == Change::Add { "add" } else { "withdraw" };
        self.pipe.time(&with_triples(command, triples))
    }

    fn kept(&mut self) -> Outcome<Rows> {
        Ok(self.pipe.call("facts\n")?.rows)
    }

    fn rows(&mut self, way: Way, question: &[u32]) -> Outcome<Rows> {
        let clause = self.clause(way, question)?;
        Ok(self.pipe.call(&format!("ask {clause}\n"))?.rows)
    }

    fn times(&mut self, way: Way, question: &[u32], runs: usize) -> Outcome<Vec<Duration>> {
        let clause = self.clause(way, question)?;
        let answer = self.pipe.call(&format!("time {runs} {clause}\n"))?;
        Ok(answer.times()[1..].to_vec())
    }
}
