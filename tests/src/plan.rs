//! What a part tries beside the model: planted faults, directed cases, random ones, and whether each
//! answer was given.

use crate::counts::{self, Counts, Kind};
use crate::fence::Memory;
use crate::model::{Fault, Model};
use crate::options::Options;
use crate::random::case_seed;
use crate::reports::report;
use crate::session::{Failure, Harness};
use std::process::exit;
use std::time::Instant;

/// A directed case: a name and what runs it.
pub type Directed = (&'static str, fn(&mut Harness) -> Result<(), Failure>);

/// What runs a random case by its seed.
pub type Case = fn(&mut Harness, u64) -> Result<(), Failure>;

/// A random phase: a name, what runs a case, and the cases for each thousand that are asked for.
pub type Phase = (&'static str, Case, u64);

/// What a part tries.
pub struct Plan {
    /// Faults of the model, each of which must end in a difference.
    pub faults: Vec<Fault>,
    pub directed: Vec<Directed>,
    pub phases: Vec<Phase>,
    /// The kinds of its calls, and the answers that they must give.
    pub kinds: Vec<Kind>,
    /// The random cases, where no number is asked for.
    pub cases: u64,
}

/// The random cases in which a planted fault is looked for.
const CASES_FOR_A_FAULT: u64 = 1_500;

impl Plan {
    /// Runs a part, and ends the program at the first difference.
    pub fn run(&self, harness: &mut Harness, options: &Options) {
        let start = Instant::now();
        if options.fault.is_none() {
            self.test_itself(options);
        }
        let cases = options.cases.unwrap_or(self.cases);
        if let Err((place, failure)) = self.compare(harness, options.seed, cases) {
            report(harness, options, &place, failure);
        }
        self.judge(&harness.counts);
        let time = start.elapsed().as_secs_f64();
        println!(
            "no difference in {} calls in {time:.0} s: {}",
            counts::calls(&harness.counts),
            counts::each_kind(&harness.counts, &self.kinds)
        );
    }

    /// Shows that differences are found: each planted fault must end in one.
    fn test_itself(&self, options: &Options) {
        for fault in &self.faults {
            let Some(place) = self.finds(*fault, options) else {
                println!("the planted fault {} was not found", fault.name());
                exit(1)
            };
            println!("the planted fault {}: found by {place}", fault.name());
        }
        println!("planted faults: {0} of {0} found", self.faults.len());
    }

    /// What finds a planted fault: a few random cases are tried, and then the directed ones.
    fn finds(&self, fault: Fault, options: &Options) -> Option<&'static str> {
        let mut harness = Harness::new(Model { fault: Some(fault) }, Memory::Fenced);
        harness.trace = options.trace.clone();
        for (number, (name, case, share)) in self.phases.iter().enumerate() {
            let mut cases = 0..share_of(CASES_FOR_A_FAULT, *share);
            if cases.any(|i| case(&mut harness, case_seed(options.seed, number as u64, i)).is_err())
            {
                return Some(name);
            }
        }
        let mut directed = self.directed.iter();
        let found = directed.find(|(_, case)| case(&mut harness).is_err());
        found.map(|(name, _)| *name)
    }

    /// Runs everything; the place and the failure of the first difference.
    fn compare(
        &self,
        harness: &mut Harness,
        seed: u64,
        cases: u64,
    ) -> Result<(), (String, Failure)> {
        for (name, case) in &self.directed {
            timed(harness, name, |h| {
                case(h).map_err(|f| (name.to_string(), f))
            })?;
        }
        for (number, (name, case, share)) in self.phases.iter().enumerate() {
            let cases = share_of(cases, *share);
            timed(harness, &format!("{name}, {cases}"), |h| {
                (0..cases).try_for_each(|i| {
                    case(h, case_seed(seed, number as u64, i))
                        .map_err(|f| (format!("{name}, case {i}"), f))
                })
            })?;
        }
        Ok(())
    }

    /// Prints how often each answer was given, and demands that each was.
    fn judge(&self, counts: &Counts) {
        counts::print(counts, &self.kinds);
        let missing = counts::missing(counts, &self.kinds);
        if !missing.is_empty() {
            println!("never answered: {}", missing.join(", "));
            exit(1);
        }
    }
}

/// The cases of a phase with a share.
fn share_of(cases: u64, share: u64) -> u64 {
    (cases * share).div_ceil(1000)
}

/// Runs something, and prints how many calls it made and how long they took.
fn timed<E>(
    harness: &mut Harness,
    name: &str,
    run: impl FnOnce(&mut Harness) -> Result<(), E>,
) -> Result<(), E> {
    let start = Instant::now();
    let before = counts::calls(&harness.counts);
    run(harness)?;
    let made = counts::calls(&harness.counts) - before;
    println!(
        "{name}: {made} calls, {:.1} s",
        start.elapsed().as_secs_f64()
    );
    Ok(())
}
