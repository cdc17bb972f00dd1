//! The tables of the report, as Markdown: our time, and for the others how many times as long they take; below 1 they are faster.

use crate::alone::Alone;
use crate::contest::{Change, Contestant};
use crate::measure::{Contest, Figures, DELIVERED, FACTS, STATEMENTS, WAYS};
use crate::numbers::{grouped, time, times};
use std::time::Duration;

/// The head of a table: its first columns, and what is measured, as our library and the others.
pub fn head(first: &[&str], names: &[&str]) -> String {
    let columns: Vec<&str> = first.iter().chain(names).copied().collect();
    format!("| {} |\n|{}\n", columns.join(" | "), "---|".repeat(columns.len()))
}

/// Our time and the ratio of each other one to it.
fn cells(ours: Duration, others: &[Duration]) -> String {
    let ratios: String = others.iter().map(|&other| format!(" | {}", times(other, ours))).collect();
    format!("{}{ratios}", time(ours))
}

/// What is taken of each contestant's figures.
fn taken(contest: &Contest, pick: impl Fn(&Figures) -> Duration) -> Vec<Duration> {
    contest.figures.iter().map(pick).collect()
}

/// A row: its name, and the cells for what is taken.
pub fn row(name: &str, measured: &[Duration]) -> String {
    format!("| {name} | {} |\n", cells(measured[0], &measured[1..]))
}

/// Load and saturate, for each of our ways.
pub fn loads(names: &[&str], contest: &Contest, alone: &Alone) -> String {
    let measured = taken(contest, |f| f.load);
    let mut out = head(&["our way"], names);
    for (name, ours) in [
        ("deliveries, the statements first, the facts in no order", measured[0]),
        ("the same, the facts in ascending order", alone.ascending),
        ("the facts lent as a table, one delivery of the statements", alone.statements_delivered),
        ("all lent as tables but one statement, which is added", alone.afresh),
    ] {
        out += &format!("| {name} | {} |\n", cells(ours, &measured[1..]));
    }
    out
}

/// Questions, a table for each way.
pub fn questions(names: &[&str], questions: &[(&str, Vec<u32>)], contest: &Contest, alone: &Alone) -> String {
    let mut out = String::new();
    for (way, asked) in WAYS.into_iter().enumerate() {
        let unit = alone.first_question[way];
        out += &format!("{}. Question 1 alone takes {}.\n\n", asked.title(), time(unit));
        out += &head(&["question", "rows", "times question 1"], names);
        for (i, (name, _)) in questions.iter().enumerate() {
            let measured = taken(contest, |f| f.questions[i][way]);
            let rows = grouped(contest.rows[i]);
            out += &format!("| {name} | {rows} | {} | {} |\n", times(measured[0], unit), cells(measured[0], &measured[1..]));
        }
        out += "\n";
    }
    out
}

/// Updates of the store for questions.
pub fn updates(contestants: &[Box<dyn Contestant>], contest: &Contest, [facts, statements]: [usize; 2]) -> String {
    let names: Vec<&str> = contestants.iter().map(|c| c.name()).collect();
    let [facts, statements] = [facts, statements].map(grouped);
    let mut out = head(&["update"], &names);
    for (kind, what) in [
        (FACTS, format!("{facts} facts X one by one")),
        (DELIVERED, format!("{facts} facts X in one delivery")),
        (STATEMENTS, format!("{statements} statements X one by one")),
    ] {
        for (i, (word, change)) in [("added", Change::Add), ("withdrawn", Change::Withdraw)].into_iter().enumerate() {
            let measured = taken(contest, |f| f.updates[kind][i]);
            let mut line = format!("| {} | {}", what.replace('X', word), time(measured[0]));
            for (contestant, other) in contestants.iter().zip(&measured).skip(1) {
                let star = if contestant.scales(change) && kind != DELIVERED { "*" } else { "" };
                line += &format!(" | {}{star}", times(*other, measured[0]));
            }
            out += &format!("{line} |\n");
        }
    }
    out
}

/// What a measure takes of a contestant's figures.
pub type Pick = Box<dyn Fn(&Figures) -> Duration>;

/// What is measured as the store grows: a name, and what is taken of a contestant's figures.
pub fn measures(questions: &[(&'static str, Vec<u32>)], changed: usize) -> Vec<(String, Pick)> {
    let mut out: Vec<(String, Pick)> = vec![
        ("load and saturate".into(), Box::new(|f| f.load)),
        ("a fact added".into(), Box::new(move |f| f.updates[FACTS][0] / changed as u32)),
        ("a fact withdrawn".into(), Box::new(move |f| f.updates[FACTS][1] / changed as u32)),
    ];
    for (way, word) in ["kept way", "rewritten way"].into_iter().enumerate() {
        for (i, (name, _)) in questions.iter().enumerate() {
            out.push((format!("{name}; {word}"), Box::new(move |f| f.questions[i][way])));
        }
    }
    out
}

/// Growth: a row for each measure and size.
pub fn growth(names: &[&str], measures: &[(String, Pick)], contests: &[Contest]) -> String {
    let mut out = head(&["what", "facts", "kept rows"], names);
    for (name, pick) in measures {
        for contest in contests {
            let measured = taken(contest, pick);
            let [facts, kept] = [contest.facts, contest.kept].map(grouped);
            out += &row(&format!("{name} | {facts} | {kept}"), &measured);
        }
    }
    out
}
