//! Small spaces gone through whole: words at the edges of their kinds, and each single damage to
//! one store and one delivery.

use crate::generate::{Parts, EDGES, VARIABLE};
use crate::model::tables::{self, Content};
use crate::model::terms::*;
use crate::plan::Directed;
use crate::random::Random;
use crate::script::{Call, Command, Output, Way};
use crate::session::{Failure, Harness, Session};
use crate::store::{Store, Table};

/// All of them, by name.
pub const CASES: [Directed; 5] = [
    ("updates with words at edges", updates),
    ("atoms with words at edges", atoms),
    ("rows with words at edges", rows),
    ("each damage to a store", tables),
    ("each damage to a delivery", bytes),
];

const V0: u32 = VARIABLE;
const V1: u32 = VARIABLE + 1;

fn output(words: usize) -> Output {
    Output { words, fill: 5 }
}

/// Runs for each triple of edge words.
fn each_triple(
    harness: &mut Harness,
    case: fn(&mut Session, Triple) -> Result<(), Failure>,
) -> Result<(), Failure> {
    for subject in EDGES {
        for property in EDGES {
            let mut session = Session::new(harness);
            for object in EDGES {
                case(&mut session, [subject, property, object])?;
            }
        }
    }
    Ok(())
}

/// Every triple of edge words added, withdrawn and delivered.
fn updates(harness: &mut Harness) -> Result<(), Failure> {
    each_triple(harness, |session, triple| {
        session.run(Command::Empty([4, 4, 7, 2]))?;
        session.call(Call::Withdraw(triple))?;
        session.call(Call::Add(triple))?;
        session.call(Call::Add(triple))?;
        session.call(Call::Withdraw(triple))?;
        let mut parts = Parts::default();
        let facts = usize::from(!is_statement_property(triple[1]));
        parts.sections[2 + facts] = vec![triple];
        session.call(Call::Deliver(parts.bytes()))
    })
}

/// Every triple of edge words as an atom, and each edge word as a head.
fn atoms(harness: &mut Harness) -> Result<(), Failure> {
    each_triple(harness, |session, [s, p, o]| {
        let table = |row: Triple| vec![1, row[0], row[1], row[2]];
        session.run(Command::Lend(Table::Statements, table([16, 2, 17])))?;
        session.run(Command::Lend(Table::Facts, table([32, 1, 16])))?;
        session.run(Command::Lend(Table::Kept, table([32, 1, 17])))?;
        session.call(Call::Alternatives([s, p, o], output(9)))?;
        for head in [s, o] {
            let words = vec![1, 1, s, p, o, head];
            session.call(Call::Ask(Way::Kept, words.clone(), output(3)))?;
            session.call(Call::Ask(Way::Rewritten, words, output(4)))?;
        }
        Ok(())
    })
}

/// Every triple of edge words as the row of each table.
fn rows(harness: &mut Harness) -> Result<(), Failure> {
    each_triple(harness, |session, triple| {
        let words = vec![1, triple[0], triple[1], triple[2], 0];
        for table in Table::ALL {
            session.run(Command::Lend(table, words.clone()))?;
            session.call(Call::List(table, 3, output(3)))?;
        }
        Ok(())
    })
}

/// A store grown from document 01's example, with a few spare words.
fn example() -> (Store, Content) {
    let statements = Graph::from([
        [16, 2, 17],
        [17, 2, 18],
        [19, 3, 20],
        [20, 4, 17],
        [20, 5, 16],
    ]);
    let facts = Graph::from([[32, 19, 33], [32, 1, 16]]);
    let kept = crate::model::Model::default().supports(&statements, &facts);
    let content = Content {
        statements,
        facts,
        kept,
    };
    let mut store = Store::empty([21, 12, 33, 11]);
    tables::write(&content, &mut store);
    (store, content)
}

/// One call of each kind on a store.
fn each_call(session: &mut Session, store: &Store) -> Result<(), Failure> {
    let question = vec![2, 2, V0, 1, 17, V0, V1, 33, V0, V1];
    let mut parts = Parts::default();
    parts.sections[1] = vec![[32, 1, 16]];
    parts.sections[3] = vec![[33, 19, 32]];
    for call in [
        Call::Add([33, 1, 16]),
        Call::Withdraw([32, 1, 16]),
        Call::Withdraw([17, 2, 18]),
        Call::Deliver(parts.bytes()),
    ] {
        session.lend(store)?;
        session.call(call)?;
    }
    session.lend(store)?;
    session.call(Call::Ask(Way::Kept, question.clone(), output(5)))?;
    session.call(Call::Ask(Way::Rewritten, question, output(4)))?;
    session.call(Call::Alternatives([V0, 1, V1], output(40)))?;
    for table in Table::ALL {
        session.call(Call::List(table, 2, output(24)))?;
    }
    Ok(())
}

/// Each word of each table changed in several ways, and each table cut at each word.
fn tables(harness: &mut Harness) -> Result<(), Failure> {
    let (store, _) = example();
    let changes: [fn(u32) -> u32; 7] = [
        |_| 0,
        |_| u32::MAX,
        |w| w ^ 1,
        |w| w ^ (1 << 31),
        |w| w.wrapping_add(1),
        |w| w.wrapping_sub(1),
        |_| 2,
    ];
    for table in Table::ALL {
        for at in 0..store.table(table).len() {
            for change in changes {
                let mut damaged = store.clone();
                let word = &mut damaged.table_mut(table)[at];
                *word = change(*word);
                each_call(&mut Session::new(harness), &damaged)?;
            }
            let mut cut = store.clone();
            cut.table_mut(table).truncate(at);
            each_call(&mut Session::new(harness), &cut)?;
        }
    }
    for at in 0..store.supports.len() {
        for support in [0, 1, 2, 3, u16::MAX] {
            let mut damaged = store.clone();
            damaged.supports[at] = support;
            each_call(&mut Session::new(harness), &damaged)?;
        }
        let mut cut = store.clone();
        cut.supports.truncate(at);
        each_call(&mut Session::new(harness), &cut)?;
    }
    Ok(())
}

/// A delivery with entries in each section and fields, cut at each byte, with a byte more, and with
/// each byte changed in several ways.
fn bytes(harness: &mut Harness) -> Result<(), Failure> {
    let (store, content) = example();
    let statements: Vec<Triple> = content.statements.into_iter().collect();
    let parts = Parts {
        sections: [
            statements[..2].to_vec(),
            vec![[32, 1, 16]],
            statements[1..3].to_vec(),
            vec![[32, 1, 16], [33, 19, 33]],
        ],
        fields: vec![(7, vec![1, 0]), (1, vec![9, 8, 7, 6]), (0, vec![])],
    };
    let bytes = parts.bytes();
    let mut random = Random::new(3);
    let mut deliver = |bytes: Vec<u8>| {
        let mut session = Session::new(harness);
        session.lend(&store)?;
        session.call(Call::Deliver(bytes))
    };
    for at in 0..bytes.len() {
        deliver(bytes[..at].to_vec())?;
        for change in [1, 2, 4, 128, 255, bytes[at], random.next() as u8] {
            let mut changed = bytes.clone();
            changed[at] ^= change;
            deliver(changed)?;
        }
    }
    for more in [0, 1, 255] {
        let mut longer = bytes.clone();
        longer.push(more);
        deliver(longer)?;
    }
    deliver(bytes)
}
