//! N-Triples read by the library and by the model, on files that are valid by construction, and
//! beside the readers of Apache Jena and of raptor (its program rapper); and N-Triples that the library
//! writes, read by these and by serd (its program serdi).

pub mod written;

use crate::entries;
use crate::fence::Memory;
use crate::files::{self, Fault, File, Range, Source};
use crate::library::Library;
use crate::model::deliveries;
use crate::model::dictionary::VOCABULARY;
use crate::model::ntriples::{Text, Texts};
use crate::model::Model;
use crate::random::{case_seed, Random};
use crate::script::{Call, Output};
use crate::store::Store;
use peers::Jena;
use std::collections::HashMap;
use std::path::{Path, PathBuf};
use std::process::Command;

/// Files read by library and model alone, and files read by all.
const FILES: u64 = 20_000;
const SHARED_FILES: u64 = 200;

/// The lines of a file at most.
const LINES: usize = 8;
const SHARED_LINES: usize = 40;

/// The bytes of a dictionary with room for the texts of a file.
const ROOM: usize = 1 << 14;

/// The phase number of the files' seeds.
const PHASE: u64 = 24;

/// A difference, in words.
type Difference = String;

/// A program that reads a file of N-Triples and writes its triples: its name and its arguments.
type Program = (&'static str, &'static [&'static str]);

/// Raptor's and serd's.
const RAPPER: Program = ("rapper", &["-q", "-i", "ntriples", "-o", "ntriples"]);
const SERDI: Program = ("serdi", &["-i", "ntriples", "-o", "ntriples"]);

/// Where the files lie that the other programs read, and what they write; and the library.
pub struct Desk {
    jena: Jena,
    file: PathBuf,
    written: PathBuf,
    library: Library,
}

impl Desk {
    /// A desk in a folder.
    pub fn new(folder: &Path) -> Desk {
        Desk {
            jena: Jena::start().expect("Jena does not start"),
            file: folder.join("file.nt"),
            written: folder.join("written.nt"),
            library: Library::new(Memory::Fenced),
        }
    }

    /// The triples that Jena reads.
    fn by_jena(&mut self) -> Result<Vec<Texts>, Difference> {
        let read = self.jena.read(&self.file, &self.written);
        read.map_err(|error| format!("Jena does not read the file: {error}"))?;
        let written = std::fs::read(&self.written).expect("what Jena wrote cannot be read");
        by_model(&written).map_err(|_| "what Jena wrote is not read".to_string())
    }

    /// The triples that a program reads, as it writes them.
    fn by_program(&self, (name, arguments): Program) -> Result<Vec<Texts>, Difference> {
        let mut command = Command::new(name);
        let started = command.args(arguments).arg(&self.file).output();
        let output = started.unwrap_or_else(|error| panic!("{name} cannot be started: {error}"));
        if !output.status.success() {
            let error = String::from_utf8_lossy(&output.stderr);
            return Err(format!("{name} does not read the file: {error}"));
        }
        by_model(&output.stdout).map_err(|_| format!("what {name} wrote is not read"))
    }

    /// The triples that the library reads: those of its delivery, by the texts of its dictionary.
    fn by_library(&mut self, file: &[u8]) -> Result<Vec<Texts>, Difference> {
        let mut store = Store {
            dictionary: vec![0; ROOM],
            ..Store::default()
        };
        let output = Output {
            words: deliveries::BYTES,
            fill: 1,
        };
        let call = Call::Read(file.to_vec(), output);
        let outcome = self.library.call(&mut store, &call)?;
        if outcome.number != 0 {
            return Err(format!(
                "the library refuses the file by {}",
                outcome.number
            ));
        }
        let delivery = deliveries::read(&outcome.delivery[..outcome.count as usize])
            .map_err(|number| format!("the delivery is refused by {number}"))?;
        let known = texts(&store.dictionary);
        let triples = delivery.entries.into_iter().map(|(_, triple)| triple);
        Ok(triples
            .map(|triple| triple.map(|term| known[&term].clone()))
            .collect())
    }

    /// Lets Jena and the library read a file, and rapper and the library one of what rapper reads:
    /// how many triples the two have.
    fn compare(&mut self, seed: u64, fault: Option<Fault>) -> Result<usize, Difference> {
        let mut random = Random::new(seed);
        let file = self.lay(&mut random, Range::All, fault);
        let read = self.by_jena()?;
        differ("Jena", &file.triples, &read)?;
        self.compare_library(&file, read)?;
        let narrow = self.lay(&mut random, Range::Raptor, fault);
        let read = self.by_program(RAPPER)?;
        differ("rapper", &narrow.triples, &read)?;
        self.compare_library(&narrow, read)?;
        Ok(file.triples.len() + narrow.triples.len())
    }

    /// Draws a file, and lays it where the programs read it.
    fn lay(&self, random: &mut Random, range: Range, fault: Option<Fault>) -> File {
        let file = drawn(random, SHARED_LINES, range, fault);
        self.lay_bytes(&file.bytes);
        file
    }

    /// Lays bytes where the programs read them.
    fn lay_bytes(&self, bytes: &[u8]) {
        std::fs::write(&self.file, bytes).expect("the file cannot be written");
    }

    /// Lets the library read a file of which its triples are known.
    fn compare_library(&mut self, file: &File, triples: Vec<Texts>) -> Result<(), Difference> {
        let read = self.by_library(&file.bytes)?;
        differ("the library", &in_sections(triples), &read)
    }

    /// The library reads a file that is valid by construction.
    fn construct(&mut self, seed: u64, fault: Option<Fault>) -> Result<(), Difference> {
        let file = drawn(&mut Random::new(seed), LINES, Range::All, fault);
        self.compare_library(&file, file.triples.clone())
    }
}

/// The model reads a file that is valid by construction.
fn construct(seed: u64, fault: Option<Fault>) -> Result<(), Difference> {
    let file = drawn(&mut Random::new(seed), LINES, Range::All, fault);
    differ("the model", &file.triples, &by_model(&file.bytes)?)
}

/// The texts of terms: those of the vocabulary, and of a dictionary.
fn texts(dictionary: &[u8]) -> HashMap<u32, Text> {
    let vocabulary = VOCABULARY.map(|text| text.as_bytes().to_vec());
    let entries = entries::of(dictionary).into_iter();
    (1..)
        .zip(vocabulary)
        .chain(entries.map(|entry| (entry.term, entry.text)))
        .collect()
}

/// A file, with a fault in the triples that it says, where one is wanted.
fn drawn(random: &mut Random, lines: usize, range: Range, fault: Option<Fault>) -> File {
    let mut source = Source::new(lines, range);
    source.fault = fault;
    files::file(random, &source)
}

/// The triples that the model reads.
fn by_model(file: &[u8]) -> Result<Vec<Texts>, Difference> {
    let read = Model::default().document(file);
    read.ok_or_else(|| "the model refuses the file".to_string())
}

/// Triples in the order of a delivery: statements, then all others.
fn in_sections(triples: Vec<Texts>) -> Vec<Texts> {
    let is_statement = |triple: &Texts| {
        let mut properties = VOCABULARY[1..].iter();
        properties.any(|text| text.as_bytes() == triple[1])
    };
    let (statements, facts): (Vec<Texts>, Vec<Texts>) = triples.into_iter().partition(is_statement);
    [statements, facts].concat()
}

/// Says where what a reader gives differs from what the file says.
fn differ(reader: &str, wanted: &[Texts], given: &[Texts]) -> Result<(), Difference> {
    let shown = |triple: Option<&Texts>| match triple {
        None => "nothing".to_string(),
        Some(texts) => texts
            .iter()
            .map(|text| String::from_utf8_lossy(text).into_owned())
            .collect::<Vec<_>>()
            .join(" "),
    };
    let longest = wanted.len().max(given.len());
    match (0..longest).find(|i| wanted.get(*i) != given.get(*i)) {
        None => Ok(()),
        Some(i) => Err(format!(
            "triple {i}: the file says {}, {reader} reads {}",
            shown(wanted.get(i)),
            shown(given.get(i))
        )),
    }
}

/// Whether a planted fault is found by the model, by the library, and by the other programs.
pub fn finds(desk: &mut Desk, seed: u64, fault: Fault) -> bool {
    let seeds = |files: u64| (0..files).map(move |i| case_seed(seed, PHASE, i));
    let model = seeds(FILES).any(|seed| construct(seed, Some(fault)).is_err());
    let library = seeds(FILES).any(|seed| desk.construct(seed, Some(fault)).is_err());
    let others = seeds(SHARED_FILES).any(|seed| desk.compare(seed, Some(fault)).is_err());
    model && library && others
}

/// Runs everything: what was read, in words, or the first difference.
pub fn run(desk: &mut Desk, seed: u64) -> Result<String, Difference> {
    for i in 0..FILES {
        let seed = case_seed(seed, PHASE, i);
        construct(seed, None)
            .and_then(|()| desk.construct(seed, None))
            .map_err(|d| format!("file {i}: {d}"))?;
    }
    let mut triples = 0;
    for i in 0..SHARED_FILES {
        let compared = desk.compare(case_seed(seed, PHASE, i), None);
        triples += compared.map_err(|d| format!("files {i}: {d}"))?;
    }
    Ok(format!(
        "{FILES} files, and {SHARED_FILES} files each beside Jena and rapper, {triples} triples"
    ))
}
