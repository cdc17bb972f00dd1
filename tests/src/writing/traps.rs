//! The traps of writing: small tables on which a careless writer is wrong, with what each must give.

use super::{call, dictionary_of, expect, read_back, table_of, tables_with};
use crate::model::dictionary::VOCABULARY;
use crate::model::terms::*;
use crate::reading::traps::CANONICAL;
use crate::script::{Command, Expected};
use crate::session::{Failure, Harness, Session};

/// Rows, the texts of a dictionary, the bytes of the output, and the reply: a refusal, or the lines.
type Case = (
    &'static [Triple],
    &'static [&'static str],
    usize,
    Result<&'static str, u32>,
);

/// A blank node and a literal.
const B: u32 = 1 << 30;
const L: u32 = 2 << 30;

/// Three texts of which each has five bytes, so that a line has twenty.
const THREE: &[&str] = &["<p:a>", "<p:b>", "<p:c>"];
const LINE: &str = "<p:a> <p:b> <p:c> .\n";

/// What the rows of each case give.
const CASES: [Case; 24] = [
    // No row: no byte.
    (&[], &[], 0, Ok("")),
    (&[], THREE, 5, Ok("")),
    // 16 is asked before 8, of each term of each row.
    (&[[16, 17, 6]], THREE, 0, Err(16)),
    (&[[6, 17, 16]], THREE, 99, Err(16)),
    (&[[16, 15, 17]], THREE, 99, Err(16)),
    (&[[16, 17, 18], [16, 17, 19]], THREE, 0, Err(16)),
    (&[[16, 17, 18], [16, 17, 19]], THREE, 99, Err(16)),
    (&[[16, 17, 18], [16, 19, 17]], THREE, 20, Err(16)),
    (&[[16, 17, 18], [19, 17, 16]], THREE, 21, Err(16)),
    (&[[16, 17, B + 1]], THREE, 99, Err(16)),
    (&[[16, 17, L + 1]], THREE, 99, Err(16)),
    (&[[16, 17, L + 2]], &["<p:a>", "<p:b>", "\"c\""], 99, Err(16)),
    (&[[16, 1, 16]], &[], 99, Err(16)),
    // The output has room for all lines, or for none.
    (&[[16, 17, 18]], THREE, 0, Err(8)),
    (&[[16, 17, 18]], THREE, 19, Err(8)),
    (&[[16, 17, 18]], THREE, 20, Ok(LINE)),
    (&[[16, 17, 18]], THREE, 21, Ok(LINE)),
    (&[[16, 17, 18], [18, 17, 16]], THREE, 39, Err(8)),
    (&[[16, 17, 18], [18, 17, 16]], THREE, 40, Ok("<p:a> <p:b> <p:c> .\n<p:c> <p:b> <p:a> .\n")),
    // The vocabulary has its texts in every dictionary, as subject and as object too.
    (&[[4, 1, 5]], &[], 147, Ok("<http://www.w3.org/2000/01/rdf-schema#domain> <http://www.w3.org/1999/02/22-rdf-syntax-ns#type> <http://www.w3.org/2000/01/rdf-schema#range> .\n")),
    (&[[16, 3, 17]], THREE, 69, Ok("<p:a> <http://www.w3.org/2000/01/rdf-schema#subPropertyOf> <p:b> .\n")),
    (&[[16, 2, B + 1]], &["_:b", "<p:a>"], 64, Ok("<p:a> <http://www.w3.org/2000/01/rdf-schema#subClassOf> _:b .\n")),
    // Rows are in the order of their terms, not of their texts.
    (&[[16, 1, 16], [17, 1, 17]], &["<z:>", "<a:>"], 130, Ok("<z:> <http://www.w3.org/1999/02/22-rdf-syntax-ns#type> <z:> .\n<a:> <http://www.w3.org/1999/02/22-rdf-syntax-ns#type> <a:> .\n")),
    // A label that ends a line is followed by a space too.
    (&[[B + 1, 16, B + 2]], &["_:a.b", "<p:a>", "_:c"], 18, Ok("_:a.b <p:a> _:c .\n")),
];

/// Each trap gives what it must, in each table that may have its rows.
pub fn run(harness: &mut Harness) -> Result<(), Failure> {
    for (rows, texts, length, reply) in CASES {
        for table in tables_with(rows.first().copied().unwrap_or_default()) {
            let mut session = Session::new(harness);
            let rows = table_of(&rows.iter().copied().collect(), 0);
            session.run(Command::Lend(*table, rows))?;
            session.run(Command::LendDictionary(dictionary_of(texts)))?;
            session.expect(call(*table, length), reply.err().unwrap_or(0))?;
            let mut lines = reply.unwrap_or_default().as_bytes().to_vec();
            session.run(Command::Expect(Expected::Count(lines.len() as u32)))?;
            lines.resize(length, 0);
            session.run(Command::Expect(Expected::Lines(lines)))?;
        }
    }
    Ok(())
}

/// Each canonical text is written as it is, and read back.
pub fn texts(harness: &mut Harness) -> Result<(), Failure> {
    for (_, text) in CANONICAL {
        let dictionary = dictionary_of(["<a:>", text]);
        let term = match text.as_bytes()[0] {
            b'<' => 17,
            b'_' => B + 1,
            _ => L + 1,
        };
        let row = [16, TYPE, term];
        let lines = format!("<a:> {} {text} .\n", VOCABULARY[0]);
        for table in tables_with(row) {
            let mut session = Session::new(harness);
            let rows = Graph::from([row]);
            expect(
                &mut session,
                *table,
                &rows,
                dictionary.clone(),
                lines.as_bytes(),
            )?;
            read_back(&mut session, *table)?;
        }
    }
    Ok(())
}
