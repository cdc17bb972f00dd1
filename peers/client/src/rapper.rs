//! Raptor's reader of N-Triples: its program rapper, run on a file.

use crate::pipe::Outcome;
use std::path::Path;
use std::process::Command;

/// What rapper says of a file that it has read, in front of the number of its triples.
const RETURNED: &str = "Parsing returned ";

/// The number of triples that rapper reads in a file.
pub fn count_triples(file: &Path) -> Outcome<usize> {
    let mut command = Command::new("rapper");
    let run = command.args(["-c", "-i", "ntriples"]).arg(file).output();
    let output = run.map_err(|error| format!("rapper could not be started: {error}"))?;
    let said = String::from_utf8_lossy(&output.stderr);
    let count = said
        .split_once(RETURNED)
        .and_then(|(_, rest)| rest.split(' ').next());
    let count = count
        .filter(|_| output.status.success())
        .and_then(|count| count.parse().ok());
    count.ok_or_else(|| format!("rapper does not read {}: {said}", file.display()))
}
