//! Calls by the binding for Rust, whose values are turned into numbers for the judges.

use crate::outcome::Outcome;
use crate::script::{Call, Output, Way};
use crate::store::{self, Store};
use families::{sys, Borrowed, Delivered, Order, Refusal, Rows, Table, Updated};

/// Whether the binding can make a call: it has no other orders than there are.
pub fn makes(call: &Call) -> bool {
    match call {
        Call::List(_, order, _) => order_of(*order).is_some(),
        _ => true,
    }
}

/// Makes a call on the store.
pub fn call(store: &mut Store, call: &Call) -> Outcome {
    let mut tables = Borrowed {
        statements: &mut store.statements,
        facts: &mut store.facts,
        kept: &mut store.kept,
        supports: &mut store.supports,
    };
    match call {
        Call::Add(triple) => updated(tables.add(*triple)),
        Call::Withdraw(triple) => updated(tables.withdraw(*triple)),
        Call::Deliver(bytes) => delivered(tables.deliver(bytes)),
        Call::Ask(Way::Kept, question, output) => {
            given(output, |words| tables.ask_kept(question, words))
        }
        Call::Ask(Way::Rewritten, question, output) => {
            given(output, |words| tables.ask_rewritten(question, words))
        }
        Call::Alternatives(atom, output) => {
            given(output, |words| tables.alternatives(*atom, words))
        }
        Call::List(table, order, output) => {
            let order = order_of(*order).expect("an order of the binding");
            given(output, |words| tables.list(table_of(*table), order, words))
        }
        Call::Read(file, output) => read(file, &mut store.dictionary, output),
        Call::Write(table, output) => {
            let (table, dictionary) = (table_of(*table), &store.dictionary);
            written(output, |bytes| {
                tables.write_ntriples(table, dictionary, bytes)
            })
        }
    }
}

/// An order by its number.
fn order_of(number: u32) -> Option<Order> {
    Order::ALL.get(number as usize).copied()
}

/// A table as the binding calls it.
fn table_of(table: store::Table) -> Table {
    match table {
        store::Table::Statements => Table::Statements,
        store::Table::Facts => Table::Facts,
        store::Table::Kept => Table::Kept,
    }
}

/// What an update gave.
fn updated(answer: Result<Updated, Refusal>) -> Outcome {
    Outcome::of(match answer {
        Ok(Updated::Applied) => 0,
        Ok(Updated::Idle) => sys::IDLE,
        Err(refusal) => refusal.number(),
    })
}

/// What a delivery gave.
fn delivered(answer: Result<Delivered, Refusal>) -> Outcome {
    match answer {
        Ok(d) => Outcome {
            result: [d.number, d.applied, d.idle, d.refused],
            ..Outcome::default()
        },
        Err(refusal) => Outcome::of(refusal.number()),
    }
}

/// What a call with an output gave: the words of the output after it, in front the rows as given.
fn given(
    output: &Output,
    call: impl for<'a> FnOnce(&'a mut [u32]) -> Result<Rows<'a>, Refusal>,
) -> Outcome {
    let mut words = output.lent();
    let (number, rows) = match call(&mut words) {
        Ok(rows) => (0, rows.map(<[u32]>::to_vec).collect()),
        Err(refusal) => (refusal.number(), Vec::new()),
    };
    let front = rows.concat();
    words[..front.len()].copy_from_slice(&front);
    Outcome {
        number,
        count: rows.len() as u64,
        output: words,
        ..Outcome::default()
    }
}

/// What a reading gave.
fn read(file: &[u8], dictionary: &mut [u8], output: &Output) -> Outcome {
    let mut delivery = output.lent_bytes();
    let reply = families::read_ntriples(file, dictionary, &mut delivery);
    Outcome::of_reading(reply.map_err(Refusal::number), delivery)
}

/// What a writing gave: the bytes of the output after it, in front the lines as given.
fn written(
    output: &Output,
    call: impl for<'a> FnOnce(&'a mut [u8]) -> Result<&'a [u8], Refusal>,
) -> Outcome {
    let mut bytes = output.lent_bytes();
    let reply = call(&mut bytes).map(<[u8]>::to_vec);
    if let Ok(lines) = &reply {
        bytes[..lines.len()].copy_from_slice(lines);
    }
    let length = reply.map(|lines| lines.len());
    Outcome::of_writing(length.map_err(Refusal::number), bytes)
}
