//! Tries the exported library in parts: calls on a store, and N-Triples read and written, beside an
//! independent model on random and directed cases; what holds, and questions, beside Apache Jena;
//! samples of the calls under valgrind; and N-Triples beside the readers of Jena, raptor and serd.
//!
//!     trial [--part model|files|writing|jena|memory|readers] [--seed N] [--cases N] [--fault NAME] [--replay FILE]

mod binding;
mod closed;
mod comparison;
mod counts;
mod entries;
mod exhaustive;
mod fence;
mod files;
mod generate;
mod histories;
mod kept;
mod lending;
mod library;
mod limits;
mod memory;
mod model;
mod options;
mod outcome;
mod peer;
mod plan;
mod random;
mod readers;
mod reading;
mod reports;
mod script;
mod session;
mod shorten;
mod store;
mod windows;
mod writing;

use fence::Memory;
use model::{Fault, Model};
use options::{usage, Options, Part};
use peer::Peer;
use plan::{Directed, Plan};
use reports::{beside_program, report, watch};
use session::Harness;
use std::path::Path;
use std::process::exit;
use std::time::Instant;

/// The histories, the files and the tables beside the model, and the small stores beside Jena, where no
/// number is asked for.
const HISTORIES: u64 = 15_000;
const FILES: u64 = 1_000_000;
const TABLES: u64 = 40_000;
const STORES: u64 = 1_000;

/// The examples of document 01.
const EXAMPLES: Directed = ("examples", |harness| {
    harness.replay_text(include_str!("../cases/examples.script"))
});

/// The part `Model`: calls on a store.
fn store_plan() -> Plan {
    let directed = limits::CASES
        .into_iter()
        .chain(closed::CASES)
        .chain(windows::CASES);
    Plan {
        faults: Fault::STORE.to_vec(),
        directed: [EXAMPLES]
            .into_iter()
            .chain(directed)
            .chain(exhaustive::CASES)
            .collect(),
        phases: histories::PHASES.to_vec(),
        kinds: counts::STORE.to_vec(),
        cases: HISTORIES,
    }
}

/// The part `Files`: N-Triples read.
fn reading_plan() -> Plan {
    Plan {
        faults: Fault::READING.to_vec(),
        directed: reading::CASES.to_vec(),
        phases: reading::PHASES.to_vec(),
        kinds: counts::READING.to_vec(),
        cases: FILES,
    }
}

/// The part `Writing`: rows written as N-Triples.
fn writing_plan() -> Plan {
    Plan {
        faults: Fault::WRITING.to_vec(),
        directed: writing::CASES.to_vec(),
        phases: writing::PHASES.to_vec(),
        kinds: [&counts::WRITING[..], &counts::READING_BACK[..]].concat(),
        cases: TABLES,
    }
}

/// The part `Jena`: kept facts and questions, and what the program kept_ntriples prints, beside Apache
/// Jena.
fn jena_part(harness: &mut Harness, options: &Options) {
    let start = Instant::now();
    if options.fault.is_none() {
        match comparison::find_faults(harness, options.seed, &beside_program("faulty.rules")) {
            Ok(found) => println!("planted faults: {found} of {found} found"),
            Err(name) => {
                println!("the planted fault {name} was not found");
                exit(1)
            }
        }
    }
    let stores = options.cases.unwrap_or(STORES);
    if let Err((place, failure)) = comparison::run(harness, options.seed, stores) {
        report(harness, options, &place, failure);
    }
    match kept::run(harness, options.seed) {
        Ok(printed) => println!("no difference of kept_ntriples from Jena: {printed}"),
        Err(difference) => {
            println!("DIFFERENCE: {difference}");
            exit(1)
        }
    }
    let time = start.elapsed().as_secs_f64();
    let seen = harness.peer.as_ref().map(|peer| peer.seen.to_string());
    println!(
        "no difference from Jena in {time:.0} s: {}",
        seen.unwrap_or_default()
    );
}

/// What valgrind runs: a planted fault, or the sample.
fn sample_part(harness: &mut Harness, options: &Options) {
    let mut faults = lending::Fault::ALL.into_iter();
    if let Some(fault) = faults.find(|f| options.plants(f.name())) {
        return memory::fail(fault);
    }
    let start = Instant::now();
    if let Err((place, failure)) = memory::sample(harness, options.seed) {
        report(harness, options, &place, failure);
    }
    let time = start.elapsed().as_secs_f64();
    let kinds = [
        &counts::STORE[..],
        &counts::READING[..],
        &counts::WRITING[..],
    ]
    .concat();
    println!(
        "no error seen by valgrind in {} calls in {time:.0} s: {}",
        counts::calls(&harness.counts),
        counts::each_kind(&harness.counts, &kinds)
    );
}

/// The part `Readers`: N-Triples beside the readers of Jena, of raptor and of serd.
fn readers_part(options: &Options) {
    let start = Instant::now();
    let folder = beside_program("readers");
    std::fs::create_dir_all(&folder).expect("the folder of the files cannot be made");
    let mut desk = readers::Desk::new(&folder);
    for fault in files::Fault::ALL {
        if !readers::finds(&mut desk, options.seed, fault) {
            println!("the planted fault {} was not found", fault.name());
            exit(1);
        }
    }
    for fault in readers::written::FAULTS {
        if !desk.finds_written(options.seed, fault) {
            println!("the planted fault {} was not found", fault.name());
            exit(1);
        }
    }
    let faults = files::Fault::ALL.len() + readers::written::FAULTS.len();
    println!("planted faults: {faults} of {faults} found");
    let read = readers::run(&mut desk, options.seed);
    match read.and_then(|read| Ok((read, desk.run_written(options.seed)?))) {
        Ok((read, written)) => {
            let time = start.elapsed().as_secs_f64();
            println!("no difference in N-Triples in {time:.0} s: read {read}; written {written}");
        }
        Err(difference) => {
            println!("DIFFERENCE: {difference}");
            exit(1)
        }
    }
}

/// The harness of a part, with the fault that is asked for.
fn harness(options: &Options) -> Harness {
    let faults = Fault::STORE.into_iter().chain(Fault::READING);
    let mut faults = faults.chain(Fault::WRITING);
    let fault = faults.find(|f| options.plants(f.name()));
    let memory = match options.part {
        Part::Sample => Memory::Heap,
        _ => Memory::Fenced,
    };
    let mut harness = Harness::new(Model { fault }, memory);
    harness.trace = options.trace.clone();
    if options.part == Part::Jena {
        harness.peer = Some(Peer::start());
        let mut faults = comparison::FAULTS.into_iter();
        if let Some(fault) = faults.find(|f| options.plants(f.0)) {
            comparison::plant(&mut harness, fault, &beside_program("faulty.rules"));
        }
    }
    harness
}

/// Runs a script again; beside Jena without the model, which is too slow for the large store.
fn replay(harness: &mut Harness, options: &Options, path: &Path) {
    let text = std::fs::read_to_string(path).unwrap_or_else(|_| usage());
    let script = script::parse(&text).unwrap_or_else(|line| {
        eprintln!("no command: {line}");
        exit(2)
    });
    harness.model_judges = harness.peer.is_none();
    match harness.replay(&script) {
        Ok(()) => println!("no difference in {} commands", script.len()),
        Err(failure) => report(harness, options, "replay", failure),
    }
}

fn main() {
    let options = Options::given();
    match options.part {
        Part::Memory => return memory::run(options.seed),
        Part::Readers => return readers_part(&options),
        _ if !options.watched => watch(),
        _ => {}
    }
    let mut harness = harness(&options);
    match (&options.replay, options.part) {
        (Some(path), _) => replay(&mut harness, &options, path),
        (None, Part::Jena) => jena_part(&mut harness, &options),
        (None, Part::Sample) => sample_part(&mut harness, &options),
        (None, Part::Files) => reading_plan().run(&mut harness, &options),
        (None, Part::Writing) => writing_plan().run(&mut harness, &options),
        (None, _) => store_plan().run(&mut harness, &options),
    }
}
