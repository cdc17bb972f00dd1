//! Small spaces gone through whole: lengths of outputs, terms and numbers at edges, orders of kinds, and
//! each word and each byte of what is lent.

use super::kinds::Kind;
use super::{call, dictionary_of, table_of, tables_with};
use crate::generate::{BLANK, EDGES, LITERAL};
use crate::model::terms::*;
use crate::reading::damage::TEXTS;
use crate::script::Command;
use crate::session::{Failure, Harness, Session};
use crate::store::Table;

/// A dictionary with texts of each kind: URIs 16 and 17, blanks 1 and 2, literals 1 and 2.
const SOME: [&str; 6] = [
    "<a:b>",
    "\"a\\n\"@b",
    "_:a",
    "<a:c>",
    "_:b.c",
    "\"\t\"^^<d:>",
];

/// Rows that each table may have, with these texts.
const STATEMENTS: [Triple; 3] = [
    [16, SUBCLASS, BLANK + 1],
    [16, DOMAIN, 17],
    [BLANK + 2, SUBCLASS, 17],
];
const FACTS: [Triple; 3] = [
    [16, TYPE, LITERAL + 2],
    [16, 17, BLANK + 2],
    [BLANK + 1, 16, LITERAL + 1],
];

fn rows(table: Table) -> Graph {
    match table {
        Table::Statements => STATEMENTS.into(),
        Table::Facts | Table::Kept => FACTS.into(),
    }
}

/// A session with the rows of a table and a dictionary.
fn lend<'a>(
    harness: &'a mut Harness,
    table: Table,
    rows: &Graph,
    dictionary: Vec<u8>,
) -> Result<Session<'a>, Failure> {
    let mut session = Session::new(harness);
    session.run(Command::Lend(table, table_of(rows, 0)))?;
    session.run(Command::LendDictionary(dictionary))?;
    Ok(session)
}

/// Enough bytes for the lines of small tables.
const ROOM: usize = 400;

/// Outputs of each length, from none to more than enough.
pub fn outputs(harness: &mut Harness) -> Result<(), Failure> {
    for table in Table::ALL {
        for binding in [false, true] {
            let mut session = lend(harness, table, &rows(table), dictionary_of(SOME))?;
            session.run(Command::Binding(binding))?;
            for length in 0..ROOM {
                session.call(call(table, length))?;
            }
        }
    }
    Ok(())
}

/// Tables of few words, dictionaries of few bytes and outputs of few, none of them too, as pointers to
/// nothing and as null pointers.
pub fn nothing(harness: &mut Harness) -> Result<(), Failure> {
    let tables = [0, 1, 2, 4, 7].map(|length| vec![0; length]);
    let rows = [[4, 1, 5], [16, 1, 16]].map(|row| table_of(&Graph::from([row]), 0));
    for words in tables.into_iter().chain(rows) {
        for (room, length) in [(0, 0), (0, 200), (1, 0), (11, 5), (12, 200), (40, 0)] {
            for (table, nulls) in Table::ALL.into_iter().zip([false, true].repeat(2)) {
                let mut session = Session::new(harness);
                session.run(Command::Nulls(nulls))?;
                session.run(Command::Lend(table, words.clone()))?;
                session.run(Command::LendDictionary(vec![0; room]))?;
                session.call(call(table, length))?;
            }
        }
    }
    Ok(())
}

/// Each word at an edge in each place of a row: terms with a text, terms without one, and no terms.
pub fn terms(harness: &mut Harness) -> Result<(), Failure> {
    let words: Vec<u32> = EDGES.into_iter().chain(1..20).collect();
    for table in Table::ALL {
        for row in rows(table) {
            for (place, word) in
                (0..3).flat_map(|place| words.iter().map(move |word| (place, *word)))
            {
                let mut row = row;
                row[place] = word;
                let mut session = lend(harness, table, &Graph::from([row]), dictionary_of(SOME))?;
                for length in [0, ROOM] {
                    session.call(call(table, length))?;
                }
            }
        }
    }
    Ok(())
}

/// Dictionaries with so many texts of a kind: each number from below the first to above the last.
pub fn numbers(harness: &mut Harness) -> Result<(), Failure> {
    for kind in Kind::ALL {
        for count in 0..6 {
            let dictionary = dictionary_of((0..count).map(|number| kind.text(number)));
            for term in kind.term(0) - 1..kind.term(count + 2) {
                let rows = Graph::from([kind.beside(term, TYPE, RANGE)]);
                let mut session = lend(harness, Table::Kept, &rows, dictionary.clone())?;
                session.call(call(Table::Kept, ROOM))?;
            }
        }
    }
    Ok(())
}

/// Dictionaries of up to six texts whose kinds stand in each order: each term in a table of its own, and
/// one of each kind that has no text.
pub fn orders(harness: &mut Harness) -> Result<(), Failure> {
    for count in 0..=6 {
        for order in 0..3usize.pow(count) {
            let kinds = (0..count).map(|i| Kind::ALL[order / 3usize.pow(i) % 3]);
            let texts = kinds.enumerate().map(|(number, kind)| kind.text(number));
            let dictionary = dictionary_of(texts);
            for kind in Kind::ALL {
                for number in 0..=count as usize {
                    let rows = Graph::from([kind.beside(kind.term(number), TYPE, RANGE)]);
                    let mut session = lend(harness, Table::Facts, &rows, dictionary.clone())?;
                    session.call(call(Table::Facts, ROOM))?;
                }
            }
        }
    }
    Ok(())
}

/// Each word at an edge in the place of each word of a table, and the table cut there.
pub fn each_word(harness: &mut Harness) -> Result<(), Failure> {
    for table in Table::ALL {
        let whole = table_of(&rows(table), 2);
        let mut session = lend(harness, table, &Graph::new(), dictionary_of(SOME))?;
        for at in 0..whole.len() {
            session.run(Command::Lend(table, whole[..at].to_vec()))?;
            session.call(call(table, ROOM))?;
            for word in EDGES {
                let mut words = whole.clone();
                words[at] = word;
                session.run(Command::Lend(table, words))?;
                session.call(call(table, ROOM))?;
            }
        }
    }
    Ok(())
}

/// Each byte in the place of each byte of a dictionary, and the dictionary cut there; written whole, and
/// with no byte.
pub fn each_byte(harness: &mut Harness) -> Result<(), Failure> {
    let mut whole = dictionary_of(SOME);
    whole.resize(whole.len() + 13, 0);
    for at in 0..whole.len() {
        let mut session = lend(
            harness,
            Table::Facts,
            &rows(Table::Facts),
            whole[..at].to_vec(),
        )?;
        session.call(call(Table::Facts, ROOM))?;
        for byte in 0..=255 {
            let mut dictionary = whole.clone();
            dictionary[at] = byte;
            session.run(Command::LendDictionary(dictionary))?;
            session.call(call(Table::Facts, usize::from(byte % 2) * ROOM))?;
        }
    }
    Ok(())
}

/// Each text that an entry may have or not, alone and behind another, with rows that have it, with rows
/// that have not, and with none.
pub fn texts(harness: &mut Harness) -> Result<(), Failure> {
    for text in TEXTS {
        for texts in [&[text][..], &[b"<a:a>", text], &[text, text]] {
            let dictionary = dictionary_of(texts);
            for row in [
                [16, TYPE, 17],
                [BLANK + 1, TYPE, TYPE],
                [TYPE, TYPE, LITERAL + 1],
                [5, TYPE, 4],
            ] {
                for table in tables_with(row) {
                    let rows = Graph::from([row]);
                    let mut session = lend(harness, *table, &rows, dictionary.clone())?;
                    session.call(call(*table, ROOM))?;
                }
            }
            let mut session = lend(harness, Table::Statements, &Graph::new(), dictionary)?;
            session.call(call(Table::Statements, 3))?;
        }
    }
    Ok(())
}
