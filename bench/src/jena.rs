//! Apache Jena (peers/jena). The kept way asks the model that its RETE rules keep up to date, closed statements included; the rewritten way
//! the explicit triples, with a union over the alternatives in place of each atom, as SPARQL, where property paths close the statements when
//! a question is put.

use crate::contest::{Change, Contestant, Outcome, Rows, Way};
use crate::rewriting::{variable, Atom, Question, Rewriter};
use families::Triple;
use std::time::Duration;

/// How often a question is answered before it is measured, for the compiler inside Java: at least and at most so many times, and for so
/// long in between.
const WARM: [u128; 2] = [5, 40];
const WARMING: Duration = Duration::from_secs(2);

/// The properties of statements that are closed.
const STEPS: [u32; 2] = [2, 3];

/// Jena, and what rewrites questions for it.
pub struct Jena {
    client: peers::Jena,
    rewriter: Rewriter,
}

impl Jena {
    /// Starts the server.
    pub fn start() -> Outcome<Box<dyn Contestant>> {
        Ok(Box::new(Jena { client: peers::Jena::start()?, rewriter: Rewriter::new() }))
    }

    /// A question as a way puts it.
    fn question(&self, way: Way, words: &[u32]) -> Outcome<peers::Question> {
        match way {
            Way::Kept => Ok(peers::Question::Words(words.to_vec())),
            Way::Rewritten => Ok(peers::Question::Explicit(sparql(&self.rewriter.question(words)?))),
        }
    }
}

/// The rewritten question as SPARQL; the server puts a node in the place of each w and its word.
fn sparql(question: &Question) -> String {
    let head: String = question.head.iter().map(|v| format!(" w{v}")).collect();
    let groups: Vec<String> = question.atoms.iter().enumerate().map(|(i, atom)| group(i, atom)).collect();
    format!("SELECT DISTINCT{head} WHERE {{ {} }}", groups.join(" "))
}

/// The i-th atom as a union over its alternatives.
fn group(i: usize, atom: &Atom) -> String {
    let [s, p, o] = atom.words.map(|word| format!("w{word}"));
    let typed = if variable(atom.words[1]).is_some() { format!(" BIND(w1 AS {p})") } else { String::new() };
    let shapes = [
        (2, format!("{s} w1 ?source{i}{typed}")),
        (2, format!("{s} ?source{i} ?other{i}{typed}")),
        (2, format!("?other{i} ?source{i} {s} FILTER(!isLiteral({s})){typed}")),
        (1, format!("{s} ?source{i} {o}")),
    ];
    let mut members = explicit(atom);
    for (pairs, (place, pattern)) in atom.alternatives.iter().zip(shapes) {
        if !pairs.is_empty() {
            members.push(format!("{{ {} {pattern} }}", values(i, pairs, atom.words[place])));
        }
    }
    members.join(" UNION ")
}

/// An atom among the explicit triples, where one or more steps of subclass or subproperty are a path.
fn explicit(atom: &Atom) -> Vec<String> {
    let [s, p, o] = atom.words.map(|word| format!("w{word}"));
    if variable(atom.words[1]).is_none() {
        let path = if STEPS.contains(&atom.words[1]) { "+" } else { "" };
        return vec![format!("{{ {s} {p}{path} {o} }}")];
    }
    let steps = STEPS.map(|step| format!("w{step}"));
    let others = format!("{{ {s} {p} {o} FILTER({p} NOT IN ({})) }}", steps.join(", "));
    let paths = steps.map(|step| format!("{{ {s} {step}+ {o} BIND({step} AS {p}) }}"));
    [others].into_iter().chain(paths).collect()
}

/// The values that an alternative's source takes, with its target where that is a variable.
fn values(i: usize, pairs: &[[u32; 2]], target: u32) -> String {
    let with_target = variable(target).is_some();
    let row = |[source, target]: &[u32; 2]| if with_target { format!("(w{source} w{target})") } else { format!("(w{source})") };
    let rows: Vec<String> = pairs.iter().map(row).collect();
    let names = if with_target { format!("?source{i} w{target}") } else { format!("?source{i}") };
    format!("VALUES ({names}) {{ {} }}", rows.join(" "))
}

impl Contestant for Jena {
    fn name(&self) -> &'static str {
        "Jena"
    }

    fn load(&mut self, statements: &[Triple], facts: &[Triple]) -> Outcome<Duration> {
        self.rewriter.load(statements)?;
        self.client.load(&[statements, facts].concat())
    }

    /// Of some withdrawals one by one, the first is timed alone and the others are made in one go.
    fn update(&mut self, change: Change, triples: &[Triple]) -> Outcome<Duration> {
        if change == Change::Add {
            return self.client.add(triples);
        }
        let first = self.client.withdraw(&triples[..1])?;
        if triples.len() > 1 {
            self.client.withdraw(&triples[1..])?;
        }
        Ok(first * triples.len() as u32)
    }

    fn deliver(&mut self, change: Change, triples: &[Triple]) -> Outcome<Duration> {
        match change {
            Change::Add => self.client.add(triples),
            Change::Withdraw => self.client.withdraw(triples),
        }
    }

    fn scales(&self, change: Change) -> bool {
        change == Change::Withdraw
    }

    fn kept(&mut self) -> Outcome<Rows> {
        self.client.facts()
    }

    fn rows(&mut self, way: Way, question: &[u32]) -> Outcome<Rows> {
        let question = self.question(way, question)?;
        self.client.ask(&question)
    }

    fn times(&mut self, way: Way, question: &[u32], runs: usize) -> Outcome<Vec<Duration>> {
        let question = self.question(way, question)?;
        let first = self.client.times(&question, 1)?;
        let warming = (WARMING.as_nanos() / first[0].as_nanos()).clamp(WARM[0], WARM[1]);
        self.client.times(&question, warming as usize)?;
        self.client.times(&question, runs)
    }
}
