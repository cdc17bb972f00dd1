//! How often each kind of call gave each answer, and which answers must have been given.

use crate::model::IDLE;
use std::collections::BTreeMap;

/// How often each kind of call gave each answer.
pub type Counts = BTreeMap<(String, u32), u64>;

/// A kind of call, and the answers that it must have given in a whole run.
pub type Kind = (&'static str, &'static [u32]);

/// The calls on a store.
pub const STORE: [Kind; 9] = [
    ("add", &[0, 1, 2, 3, 4, 5, IDLE]),
    ("withdraw", &[0, 1, 2, 3, 5, IDLE]),
    ("deliver", &[0, 1, 9, 10, 11]),
    ("ask kept", &[0, 1, 6, 7, 8]),
    ("ask rewritten", &[0, 1, 6, 7, 8]),
    ("alternatives", &[0, 1, 6, 8]),
    ("list statements", &[0, 1, 8, 12]),
    ("list facts", &[0, 1, 8, 12]),
    ("list kept", &[0, 1, 8, 12]),
];

/// The call that reads a file.
pub const READING: [Kind; 1] = [("read", &[0, 1, 13, 14, 15])];

/// The calls that write a table.
pub const WRITING: [Kind; 3] = [
    ("write statements", &[0, 1, 8, 16]),
    ("write facts", &[0, 1, 8, 16]),
    ("write kept", &[0, 1, 8, 16]),
];

/// The call that reads back what was written.
pub const READING_BACK: [Kind; 1] = [("read", &[0, 15])];

/// Calls that the counts have so far.
pub fn calls(counts: &Counts) -> u64 {
    counts.values().sum()
}

/// The answers that were never given.
pub fn missing(counts: &Counts, kinds: &[Kind]) -> Vec<String> {
    let mut missing = Vec::new();
    for (kind, numbers) in kinds {
        for number in *numbers {
            if !counts.contains_key(&(kind.to_string(), *number)) {
                missing.push(format!("{kind} {number}"));
            }
        }
    }
    missing
}

/// How often each kind of call gave each answer, one line a kind.
pub fn print(counts: &Counts, kinds: &[Kind]) {
    for (kind, _) in kinds {
        let given = counts.iter().filter(|((k, _), _)| k == kind);
        let given: Vec<String> = given
            .map(|((_, n), times)| format!("{n}: {times}"))
            .collect();
        println!("{kind}: {}", given.join(", "));
    }
}

/// How many calls of each kind there were.
pub fn each_kind(counts: &Counts, kinds: &[Kind]) -> String {
    let total = |kind: &str| -> u64 {
        let of_kind = counts.iter().filter(|((k, _), _)| k == kind);
        of_kind.map(|(_, times)| times).sum()
    };
    let kinds = kinds.iter();
    let totals: Vec<String> = kinds.map(|(k, _)| format!("{k} {}", total(k))).collect();
    totals.join(", ")
}
