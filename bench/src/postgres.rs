//! PostgreSQL (peers/postgres). A question is a join of one subquery for each atom; by the rewritten way a subquery is a union over the
//! alternatives. Both ways match closed statements, which the store keeps in a table and brings up to date when statements change.

use crate::contest::{Change, Contestant, Outcome, Rows, Way};
use crate::rewriting::{variable, Atom, Question, Rewriter};
use families::Triple;
use peers::{Answer, Pipe};
use std::process::Command;
use std::time::Duration;

pub struct Postgres {
    pipe: Pipe,
    rewriter: Rewriter,
}

impl Postgres {
    /// Starts a cluster of its own.
    pub fn start() -> Outcome<Box<dyn Contestant>> {
        let pipe = Pipe::start("PostgreSQL", Command::new("bash").arg("peers/postgres/server.sh"))?;
        let mut postgres = Postgres { pipe, rewriter: Rewriter::new() };
        postgres.call("\\ir peers/postgres/store.sql")?;
        Ok(Box::new(postgres))
    }

    /// Runs SQL: its rows.
    fn call(&mut self, sql: &str) -> Outcome<Answer> {
        self.pipe.call(&format!("{sql}\n\\echo ok\n"))
    }

    /// Gives the server triples, in the place of those before.
    fn give(&mut self, triples: &[Triple]) -> Outcome<()> {
        let rows: String = triples.iter().map(|t| format!("{} {} {}\n", t[0], t[1], t[2])).collect();
        self.call(&format!("TRUNCATE given;\nCOPY given FROM STDIN (DELIMITER ' ');\n{rows}\\.")).map(|_| ())
    }

    /// The time that an expression gives.
    fn time(&mut self, expression: &str) -> Outcome<Duration> {
        self.pipe.time(&format!("SELECT 'ok ' || {expression};\n"))
    }
}

/// A word as it stands in SQL: a number, or the name of a column.
fn term(word: u32) -> String {
    variable(word).map_or(word.to_string(), |n| format!("v{n}"))
}

/// A question as SQL.
fn select(way: Way, question: &Question) -> String {
    let head: Vec<String> = question.head.iter().map(|&v| term(v)).collect();
    let atoms: Vec<String> = question.atoms.iter().enumerate().map(|(i, atom)| format!("({}) a{i}", subquery(way, atom))).collect();
    format!("SELECT DISTINCT {} FROM {}", head.join(", "), atoms.join(" NATURAL JOIN "))
}

/// An atom as a query with a column for each variable; rows may come more than once.
fn subquery(way: Way, atom: &Atom) -> String {
    let property = if variable(atom.words[1]).is_some() { vec![] } else { vec![format!("p = {}", atom.words[1])] };
    let facts = if way == Way::Kept { "kept" } else { "fact" };
    let tables = ["stated", facts].into_iter().zip(atom.matches()).filter(|(_, matches)| *matches);
    let mut branches: Vec<String> = tables.map(|(table, _)| branch(table, atom, ["s", "p", "o"], property.clone())).collect();
    let shapes = [
        (["s", "1", "target"], "p = 1 AND o = source"),
        (["s", "1", "target"], "p = source"),
        (["o", "1", "target"], "p = source AND o < 2147483648"),
        (["s", "target", "o"], "p = source"),
    ];
    for (pairs, (columns, condition)) in atom.alternatives.iter().zip(shapes) {
        let values: Vec<String> = pairs.iter().map(|[source, target]| format!("({source}, {target})")).collect();
        if way == Way::Rewritten && !values.is_empty() {
            let from = format!("fact, (VALUES {}) alternative (source, target)", values.join(", "));
            branches.push(branch(&from, atom, columns, vec![condition.into()]));
        }
    }
    branches.join(" UNION ALL ")
}

/// One query on one table, with columns for the atom's words: those of a variable are named after it, and the subject or object that a
/// constant fixes is one more condition. The conditions given say what is wanted of a constant property.
fn branch(from: &str, atom: &Atom, [s, p, o]: [&str; 3], mut conditions: Vec<String>) -> String {
    let [subject, property, object] = atom.words;
    let (mut free, fixed): (Vec<_>, Vec<_>) = [(s, subject), (o, object)].into_iter().partition(|(_, word)| variable(*word).is_some());
    free.extend(variable(property).map(|_| (p, property)));
    let names: Vec<String> = free.iter().map(|(column, word)| format!("{column} AS {}", term(*word))).collect();
    conditions.extend(fixed.iter().map(|(column, word)| format!("{column} = {word}")));
    let condition = if conditions.is_empty() { String::new() } else { format!(" WHERE {}", conditions.join(" AND ")) };
    format!("SELECT {} FROM {from}{condition}", names.join(", "))
}

impl Contestant for Postgres {
    fn name(&self) -> &'static str {
        "PostgreSQL"
    }

    fn load(&mut self, statements: &[Triple], facts: &[Triple]) -> Outcome<Duration> {
        self.rewriter.load(statements)?;
        self.give(&[statements, facts].concat())?;
        let time = self.time("load()")?;
        self.call("VACUUM ANALYZE;")?;
        Ok(time)
    }

    fn update(&mut self, change: Change, triples: &[Triple]) -> Outcome<Duration> {
        self.give(triples)?;
        let time = self.time(&format!("update_given({})", change == Change::Add))?;
        self.call("VACUUM ANALYZE;")?;
        Ok(time)
    }

    fn kept(&mut self) -> Outcome<Rows> {
        Ok(self.call("SELECT s, p, o, support FROM kept;")?.rows)
    }

    fn rows(&mut self, way: Way, question: &[u32]) -> Outcome<Rows> {
        let select = select(way, &self.rewriter.question(question)?);
        Ok(self.call(&format!("{select};"))?.rows)
    }

    fn times(&mut self, way: Way, question: &[u32], runs: usize) -> Outcome<Vec<Duration>> {
        let select = select(way, &self.rewriter.question(question)?);
        let answer = self.pipe.call(&format!("SELECT 'ok ' || string_agg(time::text, ' ') FROM timed('{select}', {runs}) time;\n"))?;
        Ok(answer.times())
    }
}
