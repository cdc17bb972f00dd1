//! Calls of the exported library by its raw functions, each slice in memory that is watched.

use crate::binding;
use crate::fence::{Fence, Memory};
use crate::lending::Fault;
pub use crate::model::terms::Triple;
use crate::outcome::Outcome;
use crate::script::{Call, Way};
use crate::store::{Store, Table};
use families::sys::{self, Ask, List, Update, Write};

/// What results and counts hold before a call.
const RUBBISH: u32 = 0xdead_beef;
const RUBBISH_COUNT: u64 = 0xdead_beef_dead_beef;

/// Room for the longest slice lent.
const ROOM: usize = 16 << 20;

/// The library, with room for each slice of a call.
pub struct Library {
    statements: Fence,
    facts: Fence,
    kept: Fence,
    supports: Fence,
    dictionary: Fence,
    input: Fence,
    output: Fence,
    small: Fence,
    /// Whether slices of no element are lent as null pointers, as a C caller may.
    pub null_when_empty: bool,
    /// Whether calls are made by the binding for Rust, which lends the tables where they are.
    pub by_binding: bool,
    /// A deliberate fault of listings, readings and writings, where one is wanted.
    pub fault: Option<Fault>,
}

impl Library {
    pub fn new(memory: Memory) -> Library {
        Library {
            statements: Fence::new(memory, ROOM),
            facts: Fence::new(memory, ROOM),
            kept: Fence::new(memory, ROOM),
            supports: Fence::new(memory, ROOM),
            dictionary: Fence::new(memory, ROOM),
            input: Fence::new(memory, ROOM),
            output: Fence::new(memory, ROOM),
            small: Fence::new(memory, 64),
            null_when_empty: false,
            by_binding: false,
            fault: None,
        }
    }

    /// Makes a call on the store; an error where memory was written that was not lent for writing.
    pub fn call(&mut self, store: &mut Store, call: &Call) -> Result<Outcome, String> {
        if self.by_binding && binding::makes(call) {
            return Ok(binding::call(store, call));
        }
        match call {
            Call::Add(triple) => self.update(sys::families_add, store, *triple),
            Call::Withdraw(triple) => self.update(sys::families_withdraw, store, *triple),
            Call::Deliver(bytes) => self.deliver(store, bytes),
            Call::Ask(way, question, output) => self.ask(*way, store, question, &output.lent()),
            Call::Alternatives(atom, output) => {
                self.alternatives(&store.statements, *atom, &output.lent())
            }
            Call::List(table, order, output) => {
                let f: List = match table {
                    Table::Statements => sys::families_list_statements,
                    Table::Facts => sys::families_list_facts,
                    Table::Kept => sys::families_list_kept,
                };
                self.list(f, store.table(*table), *order, &output.lent())
            }
            Call::Read(file, output) => {
                self.read(file, &mut store.dictionary, &output.lent_bytes())
            }
            Call::Write(table, output) => {
                let f: Write = match table {
                    Table::Statements => sys::families_write_statements,
                    Table::Facts => sys::families_write_facts,
                    Table::Kept => sys::families_write_kept,
                };
                let words = store.table(*table);
                self.write(f, words, &store.dictionary, &output.lent_bytes())
            }
        }
    }

    /// A copy of a slice, or a null pointer where that is wanted.
    fn lend<T: Copy>(fence: &mut Fence, slice: &[T], null_when_empty: bool) -> *mut T {
        or_null(fence.lend(slice), slice.is_empty() && null_when_empty)
    }

    /// An output, likewise.
    fn lend_output<T: Copy>(&mut self, output: &[T]) -> *mut T {
        let null = output.is_empty() && self.null_when_empty;
        or_null(self.output.lend_output(output), null)
    }

    fn lend_store(&mut self, store: &Store) -> (*mut u32, *mut u32, *mut u32, *mut u16) {
        let null = self.null_when_empty;
        (
            Library::lend(&mut self.statements, &store.statements, null),
            Library::lend(&mut self.facts, &store.facts, null),
            Library::lend(&mut self.kept, &store.kept, null),
            Library::lend(&mut self.supports, &store.supports, null),
        )
    }

    fn take_store(&self, store: &mut Store) -> Result<(), String> {
        store.statements.copy_from_slice(self.statements.read());
        store.facts.copy_from_slice(self.facts.read());
        store.kept.copy_from_slice(self.kept.read());
        store.supports.copy_from_slice(self.supports.read());
        let fences = [&self.statements, &self.facts, &self.kept, &self.supports];
        whole(&fences)
    }

    fn update(
        &mut self,
        f: Update,
        store: &mut Store,
        [s, p, o]: Triple,
    ) -> Result<Outcome, String> {
        let (st, fa, ke, su) = self.lend_store(store);
        // SAFETY: each pointer is that of a slice of the length given, apart from the others.
        let number = unsafe {
            f(
                st,
                store.statements.len(),
                fa,
                store.facts.len(),
                ke,
                store.kept.len(),
                su,
                store.supports.len(),
                s,
                p,
                o,
            )
        };
        self.take_store(store)?;
        Ok(Outcome::of(number))
    }

    fn deliver(&mut self, store: &mut Store, bytes: &[u8]) -> Result<Outcome, String> {
        let (st, fa, ke, su) = self.lend_store(store);
        let input = Library::lend(&mut self.input, bytes, self.null_when_empty);
        let result = self.small.lend_output(&[RUBBISH; 4]);
        // SAFETY: each pointer is that of a slice of the length given, apart from the others.
        let number = unsafe {
            sys::families_deliver(
                st,
                store.statements.len(),
                fa,
                store.facts.len(),
                ke,
                store.kept.len(),
                su,
                store.supports.len(),
                input,
                bytes.len(),
                result,
            )
        };
        self.take_store(store)?;
        whole(&[&self.input, &self.small])?;
        unchanged(&self.input, bytes)?;
        let words: &[u32] = self.small.read();
        Ok(Outcome {
            number,
            result: [words[0], words[1], words[2], words[3]],
            ..Outcome::default()
        })
    }

    fn ask(
        &mut self,
        way: Way,
        store: &Store,
        question: &[u32],
        output: &[u32],
    ) -> Result<Outcome, String> {
        let null = self.null_when_empty;
        let (f, facts): (Ask, &[u32]) = match way {
            Way::Kept => (sys::families_ask_kept, &store.kept),
            Way::Rewritten => (sys::families_ask_rewritten, &store.facts),
        };
        let st = Library::lend(&mut self.statements, &store.statements, null);
        let fa = Library::lend(&mut self.facts, facts, null);
        let qu = Library::lend(&mut self.input, question, null);
        let rows = self.lend_output(output);
        let count = self.small.lend_output(&[RUBBISH_COUNT]);
        // SAFETY: each pointer is that of a slice of the length given, apart from the others.
        let number = unsafe {
            f(
                st,
                store.statements.len(),
                fa,
                facts.len(),
                qu,
                question.len(),
                rows,
                output.len(),
                count,
            )
        };
        unchanged(&self.statements, &store.statements)?;
        unchanged(&self.facts, facts)?;
        unchanged(&self.input, question)?;
        whole(&[&self.statements, &self.facts, &self.input])?;
        self.rows(number)
    }

    fn alternatives(
        &mut self,
        statements: &[u32],
        [s, p, o]: Triple,
        output: &[u32],
    ) -> Result<Outcome, String> {
        let null = self.null_when_empty;
        let st = Library::lend(&mut self.statements, statements, null);
        let rows = self.lend_output(output);
        let count = self.small.lend_output(&[RUBBISH_COUNT]);
        // SAFETY: each pointer is that of a slice of the length given, apart from the others.
        let number = unsafe {
            sys::families_alternatives(st, statements.len(), s, p, o, rows, output.len(), count)
        };
        unchanged(&self.statements, statements)?;
        whole(&[&self.statements])?;
        self.rows(number)
    }

    fn list(
        &mut self,
        f: List,
        table: &[u32],
        order: u32,
        output: &[u32],
    ) -> Result<Outcome, String> {
        let null = self.null_when_empty;
        let words = Library::lend(&mut self.statements, table, null);
        let rows = self.lend_output(output);
        let count = self.small.lend_output(&[RUBBISH_COUNT]);
        let read = table.len() + self.more_by(Fault::ReadPast);
        let written =
            output.len() + self.more_by(Fault::WritePast) - self.more_by(Fault::Unwritten);
        // SAFETY: each pointer is that of a slice of the length given, apart from the others, unless
        // a fault is planted.
        let number = unsafe { f(words, read, order, rows, written, count) };
        unchanged(&self.statements, table)?;
        whole(&[&self.statements])?;
        self.rows(number)
    }

    fn read(
        &mut self,
        file: &[u8],
        dictionary: &mut [u8],
        delivery: &[u8],
    ) -> Result<Outcome, String> {
        let null = self.null_when_empty;
        let fi = Library::lend(&mut self.input, file, null);
        let di = Library::lend(&mut self.dictionary, dictionary, null);
        let de = self.lend_output(delivery);
        let length = self.small.lend_output(&[RUBBISH_COUNT]);
        // SAFETY: each pointer is that of a slice of the length given, apart from the others, unless
        // a fault is planted.
        let number = unsafe {
            sys::families_read_ntriples(
                fi,
                file.len() + self.more_by(Fault::FilePast),
                di,
                dictionary.len() + self.more_by(Fault::DictionaryPast),
                de,
                delivery.len() + self.more_by(Fault::DeliveryPast),
                length,
            )
        };
        unchanged(&self.input, file)?;
        whole(&[&self.input, &self.dictionary, &self.output, &self.small])?;
        dictionary.copy_from_slice(self.dictionary.read());
        Ok(Outcome {
            number,
            count: self.small.read::<u64>()[0],
            delivery: self.output.read().to_vec(),
            ..Outcome::default()
        })
    }

    fn write(
        &mut self,
        f: Write,
        table: &[u32],
        dictionary: &[u8],
        output: &[u8],
    ) -> Result<Outcome, String> {
        let null = self.null_when_empty;
        let words = Library::lend(&mut self.statements, table, null);
        let di = Library::lend(&mut self.dictionary, dictionary, null);
        let lines = self.lend_output(output);
        let length = self.small.lend_output(&[RUBBISH_COUNT]);
        let written =
            output.len() + self.more_by(Fault::LinesPast) - self.more_by(Fault::LinesUnwritten);
        // SAFETY: each pointer is that of a slice of the length given, apart from the others, unless
        // a fault is planted.
        let number = unsafe {
            f(
                words,
                table.len() + self.more_by(Fault::RowsPast),
                di,
                dictionary.len() + self.more_by(Fault::TextsPast),
                lines,
                written,
                length,
            )
        };
        unchanged(&self.statements, table)?;
        unchanged(&self.dictionary, dictionary)?;
        whole(&[
            &self.statements,
            &self.dictionary,
            &self.output,
            &self.small,
        ])?;
        Ok(Outcome {
            number,
            count: self.small.read::<u64>()[0],
            lines: self.output.read().to_vec(),
            ..Outcome::default()
        })
    }

    /// What a fault adds to a length, where it is planted.
    fn more_by(&self, fault: Fault) -> usize {
        usize::from(self.fault == Some(fault))
    }

    /// The outcome of a call with an output of rows.
    fn rows(&self, number: u32) -> Result<Outcome, String> {
        whole(&[&self.output, &self.small])?;
        Ok(Outcome {
            number,
            count: self.small.read::<u64>()[0],
            output: self.output.read().to_vec(),
            ..Outcome::default()
        })
    }
}

/// A pointer, or a null pointer where that is wanted.
fn or_null<T>(pointer: *mut T, null: bool) -> *mut T {
    match null {
        true => std::ptr::null_mut(),
        false => pointer,
    }
}

fn whole(fences: &[&Fence]) -> Result<(), String> {
    match fences.iter().all(|fence| fence.margin_is_whole()) {
        true => Ok(()),
        false => Err("the library wrote in front of a slice".into()),
    }
}

fn unchanged<T: Copy + PartialEq>(fence: &Fence, lent: &[T]) -> Result<(), String> {
    match fence.read::<T>() == lent {
        true => Ok(()),
        false => Err("the library wrote to a slice that is lent for reading".into()),
    }
}
