//! Lines that the library writes, read by Apache Jena, by raptor and by serd.

use super::{by_model, differ, Desk, Difference, RAPPER, ROOM, SERDI, SHARED_LINES};
use crate::files::{self, File, Range, Source};
use crate::model::deliveries::BYTES;
use crate::model::ntriples::Texts;
use crate::model::{Fault, Model};
use crate::outcome::Outcome;
use crate::random::{case_seed, Random};
use crate::script::{Call, Output};
use crate::store::{Store, Table};

/// The stores whose lines are read, of each range.
const STORES: u64 = 60;

/// The files that a store is grown from.
const FILES: usize = 3;

/// The first phase number of the stores' seeds.
const PHASE: u64 = 25;

/// Bytes for the lines of a table.
const LINES: usize = 1 << 18;

/// Faults of the model that change the triples of the lines: each reader must see them.
pub const FAULTS: [Fault; 2] = [Fault::NeighbourText, Fault::RowsReversed];

/// The readers.
#[derive(Clone, Copy)]
enum Reader {
    Jena,
    Rapper,
    Serdi,
}

/// Ranges, and who reads all lines of each.
const RANGES: [(Range, &[Reader]); 3] = [
    (
        Range::Raptor,
        &[Reader::Jena, Reader::Rapper, Reader::Serdi],
    ),
    (Range::All, &[Reader::Jena, Reader::Serdi]),
    (Range::Colons, &[Reader::Rapper]),
];

impl Reader {
    fn name(self) -> &'static str {
        match self {
            Reader::Jena => "Jena",
            Reader::Rapper => RAPPER.0,
            Reader::Serdi => SERDI.0,
        }
    }
}

/// A store with an empty dictionary, with room for what some files say.
fn empty() -> Store {
    let rows = [100, 200, 4000].map(Store::words);
    Store {
        dictionary: vec![0; ROOM],
        ..Store::empty([rows[0], rows[1], rows[2], 4000])
    }
}

/// Grows a store: each file is read and delivered by what makes the calls.
fn grow(
    files: &[File],
    store: &mut Store,
    mut call: impl FnMut(&mut Store, &Call) -> Result<Outcome, Difference>,
) -> Result<(), Difference> {
    for file in files {
        let output = Output {
            words: BYTES,
            fill: 1,
        };
        let read = call(store, &Call::Read(file.bytes.clone(), output))?;
        let delivery = read.delivery[..read.count as usize].to_vec();
        let delivered = call(store, &Call::Deliver(delivery))?;
        if [read.number, delivered.number] != [0, 0] {
            return Err("a file is not read and delivered".to_string());
        }
    }
    Ok(())
}

impl Desk {
    /// The triples that a reader reads.
    fn read_by(&mut self, reader: Reader) -> Result<Vec<Texts>, Difference> {
        match reader {
            Reader::Jena => self.by_jena(),
            Reader::Rapper => self.by_program(RAPPER),
            Reader::Serdi => self.by_program(SERDI),
        }
    }

    /// Grows a store from some files in library and model, lets the library write its tables, and some
    /// readers read the lines: how many triples they are.
    fn compare_written(
        &mut self,
        seed: u64,
        range: Range,
        readers: &[Reader],
        model: Model,
    ) -> Result<usize, Difference> {
        let mut random = Random::new(seed);
        let source = Source::with_families(&mut random, SHARED_LINES, range);
        let files: Vec<File> = (0..FILES)
            .map(|_| files::file(&mut random, &source))
            .collect();
        let (mut store, mut wanted) = (empty(), empty());
        grow(&files, &mut store, |store, call| {
            self.library.call(store, call)
        })?;
        grow(&files, &mut wanted, |store, call| {
            Ok(model.call(store, call))
        })?;
        let mut triples = 0;
        for table in Table::ALL {
            let lines = model.lines(table, wanted.table(table), &wanted.dictionary);
            let wanted = by_model(&lines.expect("a store that is well formed").bytes)?;
            self.write(&mut store, table)?;
            for reader in readers {
                let read = self.read_by(*reader)?;
                differ(reader.name(), &wanted, &read)?;
            }
            triples += wanted.len();
        }
        Ok(triples)
    }

    /// Lets the library write a table, and lays the lines where the readers read them.
    fn write(&mut self, store: &mut Store, table: Table) -> Result<(), Difference> {
        let output = Output {
            words: LINES,
            fill: 1,
        };
        let outcome = self.library.call(store, &Call::Write(table, output))?;
        if outcome.number != 0 {
            return Err(format!("the writing is refused by {}", outcome.number));
        }
        self.lay_bytes(&outcome.lines[..outcome.count as usize]);
        Ok(())
    }

    /// Whether each reader finds a planted fault.
    pub fn finds_written(&mut self, seed: u64, fault: Fault) -> bool {
        let model = Model { fault: Some(fault) };
        let (range, readers) = RANGES[0];
        readers.iter().all(|reader| {
            (0..STORES).any(|i| {
                let seed = case_seed(seed, PHASE, i);
                let compared = self.compare_written(seed, range, &[*reader], model);
                compared.is_err()
            })
        })
    }

    /// Runs everything: what was written and read, in words, or the first difference.
    pub fn run_written(&mut self, seed: u64) -> Result<String, Difference> {
        let mut triples = 0;
        for (phase, (range, readers)) in (PHASE..).zip(RANGES) {
            for i in 0..STORES {
                let seed = case_seed(seed, phase, i);
                let compared = self.compare_written(seed, range, readers, Model::default());
                triples += compared.map_err(|d| format!("store {i} of phase {phase}: {d}"))?;
            }
        }
        let tables = STORES * (RANGES.len() * Table::ALL.len()) as u64;
        Ok(format!(
            "{tables} tables beside Jena, rapper or serdi, {triples} triples"
        ))
    }
}
