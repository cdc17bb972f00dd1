//! What the command line asks for.

use crate::model::Fault;
use crate::{comparison, files, lending};
use std::path::PathBuf;
use std::process::exit;

/// The parts of the trial, each a run of its own.
#[derive(Clone, Copy, PartialEq, Eq)]
pub enum Part {
    Model,
    Files,
    Writing,
    Jena,
    Memory,
    Readers,
    /// What valgrind runs for `Memory`.
    Sample,
}

impl Part {
    const ALL: [Part; 7] = [
        Part::Model,
        Part::Files,
        Part::Writing,
        Part::Jena,
        Part::Memory,
        Part::Readers,
        Part::Sample,
    ];

    /// The name by which the command line calls a part.
    fn name(self) -> &'static str {
        match self {
            Part::Model => "model",
            Part::Files => "files",
            Part::Writing => "writing",
            Part::Jena => "jena",
            Part::Memory => "memory",
            Part::Readers => "readers",
            Part::Sample => "sample",
        }
    }

    /// The names of the faults that can be planted in a part.
    fn faults(self) -> Vec<&'static str> {
        match self {
            Part::Model => Fault::STORE.map(Fault::name).to_vec(),
            Part::Files => Fault::READING.map(Fault::name).to_vec(),
            Part::Writing => Fault::WRITING.map(Fault::name).to_vec(),
            Part::Jena => comparison::FAULTS.map(|fault| fault.0).to_vec(),
            Part::Memory => Vec::new(),
            Part::Readers => files::Fault::ALL.map(files::Fault::name).to_vec(),
            Part::Sample => lending::Fault::ALL.map(lending::Fault::name).to_vec(),
        }
    }
}

/// What the command line asks for.
pub struct Options {
    pub part: Part,
    pub seed: u64,
    /// Histories of the part `Model`, files of the part `Files`, tables of the part `Writing`, small
    /// stores of the part `Jena`.
    pub cases: Option<u64>,
    pub fault: Option<String>,
    pub replay: Option<PathBuf>,
    /// Set for the program that makes the calls; the one started by hand only watches it.
    pub watched: bool,
    pub trace: Option<PathBuf>,
}

impl Options {
    /// The options of this program's command line.
    pub fn given() -> Options {
        let mut options = Options {
            part: Part::Model,
            seed: 1,
            cases: None,
            fault: None,
            replay: None,
            watched: false,
            trace: None,
        };
        let mut arguments = std::env::args().skip(1);
        while let Some(name) = arguments.next() {
            if name == "--watched" {
                options.watched = true;
                continue;
            }
            let value = arguments.next().unwrap_or_else(|| usage());
            options.set(&name, value);
        }
        let faults = options.part.faults();
        if options.fault.iter().any(|f| !faults.contains(&f.as_str())) {
            usage();
        }
        options
    }

    /// Sets an option that has a value.
    fn set(&mut self, name: &str, value: String) {
        match name {
            "--seed" => self.seed = value.parse().unwrap_or_else(|_| usage()),
            "--cases" => self.cases = Some(value.parse().unwrap_or_else(|_| usage())),
            "--part" => {
                let part = Part::ALL.into_iter().find(|p| p.name() == value);
                self.part = part.unwrap_or_else(|| usage());
            }
            "--fault" => self.fault = Some(value),
            "--replay" => self.replay = Some(value.into()),
            "--trace" => self.trace = Some(value.into()),
            _ => usage(),
        }
    }

    /// Whether a fault of this name is asked for.
    pub fn plants(&self, fault: &str) -> bool {
        self.fault.as_deref() == Some(fault)
    }
}

/// Says how this program is called, and ends.
pub fn usage() -> ! {
    eprintln!("usage: trial [--part NAME] [--seed N] [--cases N] [--fault NAME] [--replay FILE]");
    eprintln!("parts: model, files, writing, jena, memory, readers");
    for part in [
        Part::Model,
        Part::Files,
        Part::Writing,
        Part::Jena,
        Part::Readers,
    ] {
        eprintln!("faults of {}: {}", part.name(), part.faults().join(", "));
    }
    exit(2)
}
