//! When saturation pays off (document 002, section 8.5; document 000, section 5.6).

use crate::alone::Alone;
use crate::measure::{Contest, Figures, FACTS, STATEMENTS};
use crate::numbers::{grouped, percent, times};
use std::time::Duration;

/// The least number n of runs, from 1, with n · rewritten + spared > n · kept + cost; none where no number is large enough.
fn threshold([kept, rewritten]: [Duration; 2], cost: Duration, spared: Duration) -> Option<u64> {
    let gain = rewritten.as_secs_f64() - kept.as_secs_f64();
    let owed = cost.as_secs_f64() - spared.as_secs_f64();
    if gain > owed {
        return Some(1);
    }
    (gain > 0.0).then(|| (owed / gain) as u64 + 1)
}

/// A threshold in a table.
fn cell(threshold: Option<u64>) -> String {
    threshold.map_or("never".into(), |n| grouped(n as usize))
}

/// The time of one of so many updates.
fn one(times: [Duration; 2], count: usize) -> [Duration; 2] {
    times.map(|time| time / count as u32)
}

/// The thresholds of each question for our library, and the saturation threshold for the others.
pub fn thresholds(names: &[&str], questions: &[(&str, Vec<u32>)], contest: &Contest, alone: &Alone, counts: [usize; 2]) -> String {
    let ours = &contest.figures[0];
    let [added, withdrawn] = one(ours.updates[FACTS], counts[0]);
    let [stated, unstated] = one(ours.updates[STATEMENTS], counts[1]);
    let [plain_added, plain_withdrawn] = alone.plain;
    let costs = [
        (ours.load, Duration::ZERO),
        (alone.afresh, Duration::ZERO),
        (added, plain_added),
        (withdrawn, plain_withdrawn),
        (stated, Duration::ZERO),
        (unstated, Duration::ZERO),
    ];
    let ours_are =
        ["saturation, by deliveries", "saturation, at once", "fact added", "fact withdrawn", "statement added", "statement withdrawn"];
    let others = names[1..].iter().map(|name| format!(" {name}: saturation |")).collect::<String>();
    let mut out = format!("| question | {} |{others}\n|{}\n", ours_are.join(" | "), "---|".repeat(6 + names.len()));
    for (i, (name, _)) in questions.iter().enumerate() {
        let ours = costs.iter().map(|&(cost, spared)| cell(threshold(ours.questions[i], cost, spared)));
        let others = contest.figures[1..].iter().map(|f| cell(threshold(f.questions[i], f.load, Duration::ZERO)));
        out += &format!("| {name} | {} |\n", ours.chain(others).collect::<Vec<_>>().join(" | "));
    }
    out
}

/// What upkeep costs, beside document 001, table 2.
pub fn upkeep(ours: &Figures, alone: &Alone, counts: [usize; 2]) -> String {
    let [added, withdrawn] = one(ours.updates[FACTS], counts[0]);
    let [stated, unstated] = one(ours.updates[STATEMENTS], counts[1]);
    let mut out = String::from("| what upkeep costs | our library | document 001, table 2: 1 M, 10 M, 100 M triples |\n|---|---|---|\n");
    for (what, time, plain, theirs) in
        [("added", added, alone.plain[0], "1.4, 1.1, 1.1"), ("withdrawn", withdrawn, alone.plain[1], "19, 126, 891")]
    {
        out += &format!("| a fact {what}, as a multiple of the same without upkeep | {} | {theirs} |\n", times(time, plain));
    }
    for (what, time, theirs) in [("added", stated, "2.3 %, 3.6 %, 6.4 %"), ("withdrawn", unstated, "3.2 %, 5.4 %, 21 %")] {
        let [delivered, afresh] = [ours.load, alone.afresh].map(|whole| percent(time, whole));
        let ours = format!("{delivered} by deliveries, {afresh} at once");
        out += &format!("| a statement {what}, as a part of a saturation | {ours} | {theirs} |\n");
    }
    out
}
