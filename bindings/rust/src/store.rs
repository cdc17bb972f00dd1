//! A store and the calls on it.

use crate::refusal::Refusal;
use crate::sys;
use std::ops::{Deref, DerefMut};
use std::slice::ChunksExact;

/// A triple or an atom: subject, property, object.
pub type Triple = [u32; 3];

/// The four tables of a store, owned or [`Borrowed`]. Their words may be read, kept elsewhere and
/// set; a call on tables that are not well formed is refused by [`Refusal::Malformed`].
#[derive(Clone, Default, PartialEq, Eq, Debug)]
pub struct Store<Words = Vec<u32>, Supports = Vec<u16>> {
    /// The statements: their count, then three words for each, ascending, then zeros.
    pub statements: Words,
    /// The explicit facts, likewise.
    pub facts: Words,
    /// The facts kept with all that follow, likewise.
    pub kept: Words,
    /// For each kept fact the number of explicit facts that carry it, then zeros.
    pub supports: Supports,
}

/// A store in tables of the caller's.
pub type Borrowed<'a> = Store<&'a mut [u32], &'a mut [u16]>;

/// The most rows of each table of rows.
#[derive(Clone, Copy, PartialEq, Eq, Debug)]
pub struct Capacities {
    pub statements: usize,
    pub facts: usize,
    pub kept: usize,
}

impl Capacities {
    /// As many as there may be.
    pub const MOST: Capacities = Capacities {
        statements: 512,
        facts: 65_535,
        kept: 262_143,
    };
}

/// What an accepted update did.
#[derive(Clone, Copy, PartialEq, Eq, Debug)]
pub enum Updated {
    /// The triple was put in or taken out.
    Applied,
    /// Nothing: the triple to be added was there already, or the one to be withdrawn was not.
    Idle,
}

/// What an accepted delivery gave: its number, 0 where it has none, and how its entries fared.
#[derive(Clone, Copy, PartialEq, Eq, Debug)]
pub struct Delivered {
    pub number: u32,
    pub applied: u32,
    pub idle: u32,
    pub refused: u32,
}

/// A table of rows.
#[derive(Clone, Copy, PartialEq, Eq, Debug)]
pub enum Table {
    Statements,
    Facts,
    Kept,
}

/// A column order: S the subject, P the property, O the object.
#[derive(Clone, Copy, PartialEq, Eq, Debug)]
pub enum Order {
    Spo = 0,
    Sop = 1,
    Pso = 2,
    Pos = 3,
    Osp = 4,
    Ops = 5,
}

impl Order {
    /// All six, by number.
    pub const ALL: [Order; 6] = [
        Order::Spo,
        Order::Sop,
        Order::Pso,
        Order::Pos,
        Order::Osp,
        Order::Ops,
    ];
}

/// The rows in an output, ascending and each once.
pub type Rows<'a> = ChunksExact<'a, u32>;

/// The words of a row of alternatives or of a listing.
const WIDTH: usize = 3;

impl Store {
    /// An empty store with room for so many rows.
    pub fn empty(capacities: Capacities) -> Store {
        Store {
            statements: vec![0; 1 + 3 * capacities.statements],
            facts: vec![0; 1 + 3 * capacities.facts],
            kept: vec![0; 1 + 3 * capacities.kept],
            supports: vec![0; capacities.kept],
        }
    }
}

impl<Words, Supports> Store<Words, Supports>
where
    Words: DerefMut<Target = [u32]>,
    Supports: DerefMut<Target = [u16]>,
{
    /// Adds a statement or a fact.
    pub fn add(&mut self, triple: Triple) -> Result<Updated, Refusal> {
        self.update(sys::families_add, triple)
    }

    /// Withdraws a statement or a fact.
    pub fn withdraw(&mut self, triple: Triple) -> Result<Updated, Refusal> {
        self.update(sys::families_withdraw, triple)
    }

    /// An update by a function of the library.
    fn update(&mut self, function: sys::Update, triple: Triple) -> Result<Updated, Refusal> {
        let (statements, facts) = (&mut *self.statements, &mut *self.facts);
        let (kept, supports) = (&mut *self.kept, &mut *self.supports);
        let [subject, property, object] = triple;
        // SAFETY: the pointers and lengths are those of slices that are borrowed for writing.
        let number = unsafe {
            function(
                statements.as_mut_ptr(),
                statements.len(),
                facts.as_mut_ptr(),
                facts.len(),
                kept.as_mut_ptr(),
                kept.len(),
                supports.as_mut_ptr(),
                supports.len(),
                subject,
                property,
                object,
            )
        };
        match number {
            0 => Ok(Updated::Applied),
            sys::IDLE => Ok(Updated::Idle),
            number => Err(Refusal::of(number)),
        }
    }

    /// Runs a delivery. An entry that is refused changes nothing and is counted; the others run.
    pub fn deliver(&mut self, bytes: &[u8]) -> Result<Delivered, Refusal> {
        let (statements, facts) = (&mut *self.statements, &mut *self.facts);
        let (kept, supports) = (&mut *self.kept, &mut *self.supports);
        let mut result = [0; 4];
        // SAFETY: the pointers and lengths are those of slices, the written ones borrowed for that;
        // the result has four words.
        let number = unsafe {
            sys::families_deliver(
                statements.as_mut_ptr(),
                statements.len(),
                facts.as_mut_ptr(),
                facts.len(),
                kept.as_mut_ptr(),
                kept.len(),
                supports.as_mut_ptr(),
                supports.len(),
                bytes.as_ptr(),
                bytes.len(),
                result.as_mut_ptr(),
            )
        };
        let [delivery, applied, idle, refused] = result;
        accepted(number)?;
        Ok(Delivered {
            number: delivery,
            applied,
            idle,
            refused,
        })
    }
}

impl<Words, Supports> Store<Words, Supports>
where
    Words: Deref<Target = [u32]>,
{
    /// The words of a table of rows.
    pub fn table(&self, table: Table) -> &[u32] {
        match table {
            Table::Statements => &self.statements,
            Table::Facts => &self.facts,
            Table::Kept => &self.kept,
        }
    }

    /// Puts a question to the statements and the kept facts. The rows are written to the output,
    /// and given: as many words each as the question has head variables. Subclasses and subproperties
    /// match also where more than one step joins the two sides; domains and ranges match as explicit.
    ///
    /// ```
    /// # let mut store = families::Store::empty(families::Capacities { statements: 8, facts: 8, kept: 8 });
    /// store.add([16, 2, 17])?;
    /// store.add([17, 2, 18])?;
    /// // Which v0 lies under 18?
    /// let question = [1, 1, 0xC000_0000, 2, 18, 0xC000_0000];
    /// let mut output = [0; 8];
    /// let rows: Vec<&[u32]> = store.ask_kept(&question, &mut output)?.collect();
    /// assert_eq!(rows, [[16], [17]]);
    /// # Ok::<(), families::Refusal>(())
    /// ```
    pub fn ask_kept<'a>(
        &self,
        question: &[u32],
        output: &'a mut [u32],
    ) -> Result<Rows<'a>, Refusal> {
        self.ask(sys::families_ask_kept, &self.kept, question, output)
    }

    /// Puts a question to the statements, which match as by the other way, and the explicit facts, with
    /// all facts that follow from them. The kept facts are not read.
    pub fn ask_rewritten<'a>(
        &self,
        question: &[u32],
        output: &'a mut [u32],
    ) -> Result<Rows<'a>, Refusal> {
        self.ask(sys::families_ask_rewritten, &self.facts, question, output)
    }

    /// A question by a function of the library, with the facts that it is lent.
    fn ask<'a>(
        &self,
        function: sys::Ask,
        facts: &[u32],
        question: &[u32],
        output: &'a mut [u32],
    ) -> Result<Rows<'a>, Refusal> {
        let statements: &[u32] = &self.statements;
        let mut count = 0;
        // SAFETY: the pointers and lengths are those of slices, the output's borrowed for writing.
        let number = unsafe {
            function(
                statements.as_ptr(),
                statements.len(),
                facts.as_ptr(),
                facts.len(),
                question.as_ptr(),
                question.len(),
                output.as_mut_ptr(),
                output.len(),
                &mut count,
            )
        };
        accepted(number)?;
        Ok(rows(output, count, question[1] as usize))
    }

    /// The alternatives of an atom: rows of kind, source and target.
    pub fn alternatives<'a>(
        &self,
        atom: Triple,
        output: &'a mut [u32],
    ) -> Result<Rows<'a>, Refusal> {
        let statements: &[u32] = &self.statements;
        let [subject, property, object] = atom;
        let mut count = 0;
        // SAFETY: the pointers and lengths are those of slices, the output's borrowed for writing.
        let number = unsafe {
            sys::families_alternatives(
                statements.as_ptr(),
                statements.len(),
                subject,
                property,
                object,
                output.as_mut_ptr(),
                output.len(),
                &mut count,
            )
        };
        accepted(number)?;
        Ok(rows(output, count, WIDTH))
    }

    /// Lists a table: its rows with their words in a column order, ascending by that.
    pub fn list<'a>(
        &self,
        table: Table,
        order: Order,
        output: &'a mut [u32],
    ) -> Result<Rows<'a>, Refusal> {
        let function: sys::List = match table {
            Table::Statements => sys::families_list_statements,
            Table::Facts => sys::families_list_facts,
            Table::Kept => sys::families_list_kept,
        };
        let words = self.table(table);
        let mut count = 0;
        // SAFETY: the pointers and lengths are those of slices, the output's borrowed for writing.
        let number = unsafe {
            function(
                words.as_ptr(),
                words.len(),
                order as u32,
                output.as_mut_ptr(),
                output.len(),
                &mut count,
            )
        };
        accepted(number)?;
        Ok(rows(output, count, WIDTH))
    }

    /// Writes a table as canonical N-Triples, a line for each row in order, with the texts of a
    /// dictionary: the lines, behind which the bytes of the output are zero. Kept facts are written
    /// without their supports.
    ///
    /// ```
    /// let file = b"<p:cola><http://www.w3.org/1999/02/22-rdf-syntax-ns#type>\t<p:Drink>. # a fact";
    /// let mut dictionary = [0; 64];
    /// let mut delivery = [0; 32];
    /// let length = families::read_ntriples(file, &mut dictionary, &mut delivery)?;
    /// let mut store = families::Store::empty(families::Capacities { statements: 8, facts: 8, kept: 8 });
    /// store.deliver(&delivery[..length])?;
    /// let mut output = [0; 128];
    /// assert_eq!(
    ///     store.write_ntriples(families::Table::Kept, &dictionary, &mut output)?,
    ///     b"<p:cola> <http://www.w3.org/1999/02/22-rdf-syntax-ns#type> <p:Drink> .\n"
    /// );
    /// # Ok::<(), families::Refusal>(())
    /// ```
    pub fn write_ntriples<'a>(
        &self,
        table: Table,
        dictionary: &[u8],
        output: &'a mut [u8],
    ) -> Result<&'a [u8], Refusal> {
        let function: sys::Write = match table {
            Table::Statements => sys::families_write_statements,
            Table::Facts => sys::families_write_facts,
            Table::Kept => sys::families_write_kept,
        };
        let words = self.table(table);
        let mut length = 0;
        // SAFETY: the pointers and lengths are those of slices, the output's borrowed for writing.
        let number = unsafe {
            function(
                words.as_ptr(),
                words.len(),
                dictionary.as_ptr(),
                dictionary.len(),
                output.as_mut_ptr(),
                output.len(),
                &mut length,
            )
        };
        accepted(number)?;
        Ok(&output[..length as usize])
    }
}

/// The refusal that a number means, where it is not 0.
fn accepted(number: u32) -> Result<(), Refusal> {
    match number {
        0 => Ok(()),
        number => Err(Refusal::of(number)),
    }
}

/// The first rows of an output, so many of so many words each.
fn rows(output: &[u32], count: u64, width: usize) -> Rows<'_> {
    output[..count as usize * width].chunks_exact(width)
}
