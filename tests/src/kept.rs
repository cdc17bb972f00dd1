//! What the program kept_ntriples prints for a file of N-Triples, beside what holds by Jena's rules.

use crate::files::{self, File, Kind, Term};
use crate::model::ntriples::Texts;
use crate::model::Model;
use crate::random::{case_seed, Random};
use crate::reports::beside_program;
use crate::session::Harness;
use std::collections::BTreeSet;
use std::path::Path;
use std::process::{Command, Output, Stdio};

/// The program, which `make programs` builds.
const PROGRAM: &str = "target/bin/kept_ntriples";

/// The files compared, and the triples of one at least and at most.
const FILES: u64 = 20;
const TRIPLES: (usize, usize) = (2_000, 5_000);

/// The phase number of the files' seeds.
const PHASE: u64 = 17;

/// How many terms of a sort a file has. The program has room for 32,768 kept facts: no more types follow
/// than there are pairs of a thing and a class, and no more other facts than three for each line, by the
/// chains of properties.
const CLASSES: usize = 60;
const PROPERTIES: usize = 30;
const THINGS: usize = 200;
const LITERALS: usize = 100;

/// The classes of the longest chain, and the properties of each chain of them.
const CHAIN: usize = 15;
const CHAIN_OF_PROPERTIES: usize = 3;

/// A difference, in words.
type Difference = String;

/// A line of a file before it is spelled.
type Line<'a> = [&'a Term; 3];

/// The terms of a file.
struct Terms {
    vocabulary: [Term; 5],
    classes: Vec<Term>,
    properties: Vec<Term>,
    things: Vec<Term>,
    literals: Vec<Term>,
}

/// So many terms of some kinds.
fn terms(random: &mut Random, count: usize, kinds: &[Kind]) -> Vec<Term> {
    let numbers = 0..count;
    numbers
        .map(|number| {
            let kind = random.pick(kinds);
            files::numbered(random, kind, number)
        })
        .collect()
}

impl Terms {
    fn drawn(random: &mut Random) -> Terms {
        Terms {
            vocabulary: files::vocabulary(),
            classes: terms(random, CLASSES, &[Kind::Iri, Kind::Iri, Kind::Blank]),
            properties: terms(random, PROPERTIES, &[Kind::Iri]),
            things: terms(random, THINGS, &[Kind::Iri, Kind::Iri, Kind::Blank]),
            literals: terms(random, LITERALS, &[Kind::Literal]),
        }
    }

    /// A tree of classes with a long chain, and loops in it.
    fn subclasses(&self, random: &mut Random) -> Vec<Line<'_>> {
        let mut lines = Vec::new();
        for (at, class) in self.classes.iter().enumerate().skip(1) {
            let above = match at < CHAIN {
                true => &self.classes[at - 1],
                false => &self.classes[random.below(at)],
            };
            lines.push([class, &self.vocabulary[1], above]);
            if random.once_in(20) {
                lines.push([above, &self.vocabulary[1], class]);
            }
        }
        lines
    }

    /// Chains of properties, some of them loops, with domains and ranges.
    fn subproperties(&self, random: &mut Random) -> Vec<Line<'_>> {
        let [_, _, subproperty, domain, range] = &self.vocabulary;
        let mut lines = Vec::new();
        for chain in self.properties.chunks(CHAIN_OF_PROPERTIES) {
            lines.extend(
                chain
                    .windows(2)
                    .map(|pair| [&pair[0], subproperty, &pair[1]]),
            );
            if random.once_in(4) {
                lines.push([&chain[chain.len() - 1], subproperty, &chain[0]]);
            }
            for property in chain {
                let relation = [domain, range][random.below(2)];
                lines.push([property, relation, one_of(random, &self.classes)]);
            }
        }
        lines
    }

    /// A thing's class, or a property of it.
    fn fact(&self, random: &mut Random) -> Line<'_> {
        let thing = one_of(random, &self.things);
        let property = one_of(random, &self.properties);
        match random.below(4) {
            0 => [thing, &self.vocabulary[0], one_of(random, &self.classes)],
            1 => [thing, property, one_of(random, &self.literals)],
            _ => [thing, property, one_of(random, &self.things)],
        }
    }
}

fn one_of<'a>(random: &mut Random, terms: &'a [Term]) -> &'a Term {
    &terms[random.below(terms.len())]
}

/// A file: statements and facts in any order.
fn drawn(seed: u64) -> File {
    let mut random = Random::new(seed);
    let terms = Terms::drawn(&mut random);
    let mut lines = terms.subclasses(&mut random);
    lines.extend(terms.subproperties(&mut random));
    let count = random.between(TRIPLES.0, TRIPLES.1);
    while lines.len() < count {
        lines.push(terms.fact(&mut random));
    }
    random.shuffle(&mut lines);
    files::file_of(&mut random, &lines)
}

/// What the program prints for a file.
fn printed(path: &Path) -> Output {
    let input = std::fs::File::open(path).expect("the file cannot be read");
    let mut command = Command::new(PROGRAM);
    let run = command.stdin(Stdio::from(input)).output();
    run.unwrap_or_else(|error| {
        panic!("{PROGRAM} cannot be started: {error}; `make programs` builds it")
    })
}

/// The line of a triple.
fn line([subject, property, object]: &Texts) -> Vec<u8> {
    [subject, &b" "[..], property, b" ", object, b" .\n"].concat()
}

/// Compares the lines that the program prints with the facts that hold by Jena, as sets: the triples of
/// the file, and the lines.
fn compare(harness: &mut Harness, seed: u64) -> Result<(usize, usize), Difference> {
    let [path, written] = ["kept.nt", "held.nt"].map(beside_program);
    let file = drawn(seed);
    std::fs::write(&path, &file.bytes).expect("the file cannot be written");
    let output = printed(&path);
    let distinct = file.triples.iter().collect::<BTreeSet<_>>().len();
    let idle = file.triples.len() - distinct;
    let result = format!("delivery 0 applied {distinct} idle {idle} refused 0\n");
    if output.stderr != result.as_bytes() {
        let said = String::from_utf8_lossy(&output.stderr);
        return Err(format!("the program says {said}, and should {result}"));
    }
    let peer = harness.peer.as_mut().expect("Jena has not been started");
    peer.hold(&path, &written);
    let held = std::fs::read(&written).expect("what Jena wrote cannot be read");
    let held = Model::default().document(&held);
    let held: BTreeSet<Vec<u8>> = held.expect("what Jena wrote").iter().map(line).collect();
    let lines: Vec<&[u8]> = output
        .stdout
        .split_inclusive(|byte| *byte == b'\n')
        .collect();
    same(&lines, &held)?;
    Ok((file.triples.len(), lines.len()))
}

/// Demands that lines are those of a set, each once.
fn same(lines: &[&[u8]], held: &BTreeSet<Vec<u8>>) -> Result<(), Difference> {
    let printed: BTreeSet<Vec<u8>> = lines.iter().map(|line| line.to_vec()).collect();
    if printed == *held && printed.len() == lines.len() {
        return Ok(());
    }
    let only = |these: &BTreeSet<Vec<u8>>, others: &BTreeSet<Vec<u8>>| {
        let line = these.difference(others).next().cloned();
        String::from_utf8_lossy(&line.unwrap_or_default()).into_owned()
    };
    Err(format!(
        "the program prints {} lines, {} of them distinct, by Jena {}\nonly the program: {}\nonly Jena: {}",
        lines.len(),
        printed.len(),
        held.len(),
        only(&printed, held),
        only(held, &printed)
    ))
}

/// Whether some file shows a difference.
pub fn finds(harness: &mut Harness, seed: u64) -> bool {
    (0..FILES).any(|i| compare(harness, case_seed(seed, PHASE, i)).is_err())
}

/// Compares each file: how many there were, in words, or the first difference.
pub fn run(harness: &mut Harness, seed: u64) -> Result<String, Difference> {
    let (mut triples, mut lines) = (0, 0);
    for i in 0..FILES {
        let compared = compare(harness, case_seed(seed, PHASE, i));
        let (some, more) = compared.map_err(|d| format!("file {i} of kept_ntriples: {d}"))?;
        triples += some;
        lines += more;
    }
    Ok(format!(
        "{FILES} files, {triples} triples, {lines} kept facts"
    ))
}
