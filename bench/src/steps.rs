//! Our library by itself where as many statements as there may be, or some of them, form one chain or one loop of subclasses.

use crate::clock::{median, progress};
use crate::contest::{Contestant, Outcome, Way};
use crate::measure::WAYS;
use crate::numbers::{grouped, time};
use crate::ours::Ours;
use crate::scale::Scale;
use families::Triple;
use workload::{question, variable, CLASS};

/// A chain of so many subclass steps.
fn chain(n: u32) -> Vec<Triple> {
    (0..n).map(|i| [CLASS + i, 2, CLASS + i + 1]).collect()
}

/// A loop of so many.
fn ring(n: u32) -> Vec<Triple> {
    (0..n).map(|i| [CLASS + i, 2, CLASS + (i + 1) % n]).collect()
}

/// The statements of a size, and a question to them, by name.
type Asked = (&'static str, fn(u32) -> Vec<Triple>, Vec<u32>);

/// What is asked. From one class on, little but closing is measured.
fn questions() -> [Asked; 5] {
    let [x, y, z] = [0, 1, 2].map(variable);
    let all = question(&[[x, 2, y]], &[x, y]);
    let from_one = question(&[[CLASS, 2, y]], &[y]);
    [
        ("a chain: a class is a subclass of y", chain, from_one.clone()),
        ("a chain: x is a subclass of y", chain, all.clone()),
        ("a chain: x is a subclass of y, and y of z; for x", chain, question(&[[x, 2, y], [y, 2, z]], &[x])),
        ("a loop: a class is a subclass of y", ring, from_one),
        ("a loop: x is a subclass of y", ring, all),
    ]
}

/// The rows of a question by a way, and the times that it takes with each size.
fn row(scale: &Scale, (name, statements, words): &Asked, way: Way) -> Outcome<String> {
    let mut ours = Ours::new();
    let (mut cells, mut rows) = (String::new(), 0);
    for &n in &scale.steps {
        ours.load(&statements(n as u32), &[])?;
        cells += &format!(" {} |", time(median(ours.times(way, words, scale.runs)?)));
        rows = ours.rows(way, words)?.len();
    }
    Ok(format!("| {name} | {} |{cells}\n", grouped(rows)))
}

/// Each question by both ways, a table for each.
pub fn by_statements(scale: &Scale) -> Outcome<String> {
    let sizes: String = scale.steps.iter().map(|&n| format!(" {} statements |", grouped(n))).collect();
    let mut out = String::new();
    for way in WAYS {
        progress(&format!("our library: closed statements: {}", way.title().to_lowercase()));
        out += &format!("{}.\n\n| question | rows of the last |{sizes}\n|{}\n", way.title(), "---|".repeat(2 + scale.steps.len()));
        for asked in &questions() {
            out += &row(scale, asked, way)?;
        }
        out += "\n";
    }
    Ok(out)
}
