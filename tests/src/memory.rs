//! A sample of the trial under valgrind, each slice in a heap block of exactly its length.

use crate::closed;
use crate::entries;
use crate::fence::Memory;
use crate::histories;
use crate::lending::Fault;
use crate::model::Model;
use crate::plan::Case;
use crate::random::case_seed;
use crate::reading;
use crate::script::{Call, Command, Output};
use crate::session::{Failure, Harness, Session};
use crate::store::{Store, Table};
use crate::writing;
use std::process::{exit, Stdio};

/// The exit status by which valgrind says that it saw an error.
const SEEN: i32 = 99;

/// Runs the sample under valgrind: the exit status.
fn status(arguments: &[&str], quiet: bool) -> Option<i32> {
    let program = std::env::current_exe().expect("this program has no path");
    let mut command = std::process::Command::new("valgrind");
    command
        .args(["--quiet", &format!("--error-exitcode={SEEN}")])
        .arg(program);
    command
        .args(["--watched", "--part", "sample"])
        .args(arguments);
    if quiet {
        command.stdout(Stdio::null()).stderr(Stdio::null());
    }
    let status = command.status().expect("valgrind cannot be started");
    status.code()
}

/// Demands that valgrind sees each planted fault, and nothing in the sample.
pub fn run(seed: u64) {
    for fault in Fault::ALL {
        let found = status(&["--fault", fault.name()], true);
        if found != Some(SEEN) {
            println!(
                "valgrind did not see the planted fault {}: {found:?}",
                fault.name()
            );
            exit(1);
        }
    }
    println!(
        "planted faults: {0} of {0} seen by valgrind",
        Fault::ALL.len()
    );
    match status(&["--seed", &seed.to_string()], false) {
        Some(0) => {}
        Some(SEEN) => {
            println!("valgrind saw an error in the library; seed {seed}");
            exit(1)
        }
        other => {
            println!("the sample under valgrind ended with {other:?}; seed {seed}");
            exit(1)
        }
    }
}

/// A listing or a writing of a table of one row, or a reading of a file of one line, with a planted
/// fault.
pub fn fail(fault: Fault) {
    let mut harness = Harness::new(Model::default(), Memory::Heap);
    let mut session = Session::new(&mut harness);
    for command in [
        Command::Empty([Store::words(1); 4]),
        Command::Call(Call::Add([16, 2, 17])),
        Command::LendDictionary(entries::bytes(&entries::numbered(TEXTS.map(Vec::from)))),
    ] {
        session
            .run(command)
            .unwrap_or_else(|f| panic!("{}", f.what));
    }
    session.harness.library.fault = Some(fault);
    let _ = session.call(match fault {
        Fault::ReadPast | Fault::WritePast | Fault::Unwritten => {
            Call::List(Table::Statements, 0, Output { words: 6, fill: 1 })
        }
        Fault::FilePast | Fault::DictionaryPast | Fault::DeliveryPast => {
            Call::Read(LINE.to_vec(), Output { words: 22, fill: 1 })
        }
        Fault::RowsPast | Fault::TextsPast | Fault::LinesPast | Fault::LinesUnwritten => {
            Call::Write(Table::Statements, Output { words: 99, fill: 1 })
        }
    });
}

/// The texts of the dictionary, and a file of one line.
const TEXTS: [&[u8]; 2] = [b"<p:a>", b"<p:b>"];
const LINE: &[u8] = b"<p:a> <p:b> <p:a> .";

/// Histories of the sample: what runs one, and how many.
const HISTORIES: [(Case, u64); 3] = [
    (histories::grown, 300),
    (histories::lent, 300),
    (histories::damaged, 900),
];

/// The files and the tables of the sample, at about.
const FILES: u64 = 5_000;
const TABLES: u64 = 500;

/// The cases of the sample: what runs one, and how many.
fn cases() -> impl Iterator<Item = (Case, u64)> {
    let files = reading::PHASES.into_iter();
    let files = files.map(|(_, case, share)| (case, FILES * share / 1000));
    let tables = writing::PHASES.into_iter();
    let tables = tables.map(|(_, case, share)| (case, TABLES * share / 1000));
    HISTORIES.into_iter().chain(files).chain(tables)
}

/// Runs the sample; the place and the failure of the first difference.
pub fn sample(harness: &mut Harness, seed: u64) -> Result<(), (String, Failure)> {
    for (number, (case, cases)) in cases().enumerate() {
        for i in 0..cases {
            case(harness, case_seed(seed, 32 + number as u64, i))
                .map_err(|f| (format!("sample {number}, case {i}"), f))?;
        }
    }
    closed::past_a_word(harness).map_err(|f| ("closed statements".to_string(), f))?;
    writing::past_the_places(harness).map_err(|f| ("many texts".to_string(), f))
}
