//! Directed cases at each limit of document 01.

use crate::generate::{Parts, VARIABLE};
use crate::model::tables::{self, Content, FACTS, KEPT, STATEMENTS};
use crate::model::terms::*;
use crate::model::IDLE;
use crate::plan::Directed;
use crate::random::Random;
use crate::script::{Call, Command, Expected, Output, Way};
use crate::session::{Failure, Harness, Session};
use crate::store::{Store, Table};
use crate::windows::ask;
use std::collections::BTreeMap;

/// The first class or property of a long chain, and a term after all of them.
pub const FIRST: u32 = 16;
const THING: u32 = 5000;
const LONGEST: u32 = STATEMENTS as u32;

const V0: u32 = VARIABLE;
const V1: u32 = VARIABLE + 1;
const V2: u32 = VARIABLE + 2;

/// All directed cases, by name.
pub const CASES: [Directed; 15] = [
    ("chain of subclasses", |h| chain(h, SUBCLASS)),
    ("chain of subproperties", |h| chain(h, SUBPROPERTY)),
    ("chain through a domain", |h| bent_chain(h, DOMAIN)),
    ("chain through a range", |h| bent_chain(h, RANGE)),
    ("loop of subclasses", |h| ring(h, SUBCLASS)),
    ("loop of subproperties", |h| ring(h, SUBPROPERTY)),
    ("statements at their limit", statements_limit),
    ("facts at their limit", facts_limit),
    ("kept facts at their limit", kept_limit),
    ("supports at their limit", supports_limit),
    ("delivery of the most entries", most_entries),
    ("delivery of the most bytes", most_bytes),
    ("question with the most rows", most_rows),
    ("tables far past their limits", long_tables),
    ("slices of no element", no_elements),
];

/// An output of so many words.
fn output(words: usize) -> Output {
    Output { words, fill: 99 }
}

/// An empty store for so many statements, facts and kept facts.
fn empty(statements: usize, facts: usize, kept: usize) -> Command {
    Command::Empty([
        Store::words(statements),
        Store::words(facts),
        Store::words(kept),
        kept,
    ])
}

/// Lends a store with statements alone, and room for four facts and so many kept facts.
fn lend_statements(session: &mut Session, rows: &[Triple], kept: usize) -> Result<(), Failure> {
    let mut store = Store::empty([
        Store::words(STATEMENTS),
        Store::words(4),
        Store::words(kept),
        kept,
    ]);
    let content = Content {
        statements: rows.iter().copied().collect(),
        facts: Graph::new(),
        kept: BTreeMap::new(),
    };
    tables::write(&content, &mut store);
    session.lend(&store)
}

/// Asks a question of one atom by both ways, into an output for just its rows.
fn ask_both(session: &mut Session, atom: Triple, head: &[u32], rows: usize) -> Result<(), Failure> {
    let mut words = vec![1, head.len() as u32];
    words.extend(atom);
    words.extend(head);
    for way in Way::BOTH {
        let exact = output(rows * head.len());
        session.expect(Call::Ask(way, words.clone(), exact), 0)?;
        session.run(Command::Expect(Expected::Count(rows as u32)))?;
        if rows > 0 {
            let short = output(rows * head.len() - 1);
            session.expect(Call::Ask(way, words.clone(), short), 8)?;
        }
    }
    Ok(())
}

/// Asks by both ways for rows that the case knows. The model does not judge: it would close a long chain
/// again for each question.
fn ask_known<const N: usize>(
    session: &mut Session,
    atom: Triple,
    head: [u32; N],
    rows: Vec<[u32; N]>,
) -> Result<(), Failure> {
    session.harness.model_judges = false;
    for way in Way::BOTH {
        ask(session, way, &[atom], head, rows.clone())?;
    }
    session.harness.model_judges = true;
    Ok(())
}

/// Asks for alternatives, into an output for just its rows and into one word less.
fn alternatives(session: &mut Session, atom: Triple, rows: usize) -> Result<(), Failure> {
    session.expect(Call::Alternatives(atom, output(3 * rows)), 0)?;
    session.run(Command::Expect(Expected::Count(rows as u32)))?;
    session.expect(Call::Alternatives(atom, output(3 * rows - 1)), 8)
}

/// The steps of a chain of one property from the first term on.
pub fn steps(property: u32, length: u32) -> Vec<Triple> {
    (FIRST..FIRST + length)
        .map(|c| [c, property, c + 1])
        .collect()
}

/// The pairs that the steps of a chain join, from a term on.
pub fn pairs(property: u32, first: u32, length: u32) -> impl Iterator<Item = Triple> {
    let last = first + length;
    (first..last).flat_map(move |a| (a + 1..=last).map(move |b| [a, property, b]))
}

/// A fact that enters a chain at its start.
fn entering(property: u32) -> Triple {
    match property {
        SUBCLASS => [THING, TYPE, FIRST],
        _ => [THING, FIRST, THING + 1],
    }
}

/// What the fact that enters a chain at its start carries there, a row for each term of so many: property
/// and object.
fn carried(property: u32, terms: u32) -> Vec<[u32; 2]> {
    let terms = FIRST..FIRST + terms;
    match property {
        SUBCLASS => terms.map(|class| [TYPE, class]).collect(),
        _ => terms.map(|property| [property, THING + 1]).collect(),
    }
}

/// What asks for the end of a chain.
fn ending(property: u32) -> Triple {
    match property {
        SUBCLASS => [V0, TYPE, FIRST + LONGEST],
        _ => [V0, FIRST + LONGEST, THING + 1],
    }
}

/// A chain of 512 steps, put in at random with its fact already there: "Statement 512 enters, 513
/// gets 4". Kept facts of just the rows carried fit, and one less does not.
fn chain(harness: &mut Harness, property: u32) -> Result<(), Failure> {
    let rows = LONGEST as usize + 1;
    let mut order = steps(property, LONGEST);
    Random::new(7).shuffle(&mut order);
    let mut session = Session::new(harness);
    session.run(empty(STATEMENTS + 10, 4, rows))?;
    session.expect(Call::Add(entering(property)), 0)?;
    for statement in &order {
        session.expect(Call::Add(*statement), 0)?;
    }
    session.expect(Call::Add([FIRST, property, FIRST + 300]), 4)?;
    session.expect(Call::Add(order[5]), IDLE)?;
    ask_both(&mut session, ending(property), &[V0], 1)?;
    ask_known(
        &mut session,
        [THING, V1, V2],
        [V1, V2],
        carried(property, LONGEST + 1),
    )?;
    let pairs = rows * (rows - 1) / 2;
    match property {
        SUBCLASS => {
            alternatives(&mut session, [V0, TYPE, FIRST + LONGEST], rows)?;
            alternatives(&mut session, [V0, TYPE, V1], pairs + 1)?;
        }
        _ => {
            alternatives(&mut session, [V0, FIRST + LONGEST, V1], rows)?;
            alternatives(&mut session, [V0, V1, V2], pairs + 1)?;
        }
    }
    session.expect(Call::Withdraw(order[9]), 0)?;
    session.expect(Call::Add(order[9]), 0)?;

    lend_statements(&mut session, &order, rows - 1)?;
    session.expect(Call::Add(entering(property)), 5)?;
    session.expect(Call::Withdraw(order[0]), 0)?;
    session.expect(Call::Add(entering(property)), 0)?;
    session.expect(Call::Add(order[0]), 5)
}

/// 255 subproperty steps, one domain or range, and 256 subclass steps: 512 statements.
fn bent_chain(harness: &mut Harness, bend: u32) -> Result<(), Failure> {
    let class = 3000;
    let mut statements = steps(SUBPROPERTY, 255);
    statements.push([FIRST + 255, bend, class]);
    statements.extend((class..class + 256).map(|c| [c, SUBCLASS, c + 1]));
    let mut session = Session::new(harness);
    lend_statements(&mut session, &statements[30..], 1000)?;
    session.expect(Call::Add([THING, FIRST, THING + 1]), 0)?;
    for statement in statements[..30].iter().rev() {
        session.expect(Call::Add(*statement), 0)?;
    }
    session.expect(Call::Add([FIRST, bend, class]), 4)?;
    let typed = if bend == DOMAIN { THING } else { THING + 1 };
    let properties = (FIRST..=FIRST + 255).map(|p| [THING, p, THING + 1]);
    let classes = (class..=class + 256).map(|c| [typed, TYPE, c]);
    let mut rows: Vec<Triple> = properties.chain(classes).collect();
    rows.push([FIRST + 255, bend, class]);
    rows.extend(pairs(SUBPROPERTY, FIRST, 255));
    rows.extend(pairs(SUBCLASS, class, 256));
    ask_known(&mut session, [V0, V1, V2], [V0, V1, V2], rows)?;
    ask_both(&mut session, [V0, TYPE, class + 256], &[V0], 1)?;
    let last = [V0, TYPE, class + 256];
    alternatives(&mut session, last, 1 + 256 + 256)?;
    session.expect(Call::Withdraw([FIRST, SUBPROPERTY, FIRST + 1]), 0)?;
    ask_both(&mut session, [V0, TYPE, class + 256], &[V0], 0)
}

/// A loop of 512 steps: each fact in it carries a row for each of them.
fn ring(harness: &mut Harness, property: u32) -> Result<(), Failure> {
    let mut statements = steps(property, LONGEST - 1);
    statements.push([FIRST + LONGEST - 1, property, FIRST]);
    let mut session = Session::new(harness);
    let size = LONGEST as usize;
    lend_statements(&mut session, &statements[1..], size)?;
    session.expect(Call::Add(entering(property)), 0)?;
    session.expect(Call::Add(statements[0]), 0)?;
    let other = match property {
        SUBCLASS => [THING, TYPE, FIRST + 100],
        _ => [THING, FIRST + 100, THING + 1],
    };
    session.expect(Call::Add(other), 0)?;
    let supports = vec![2; size];
    session.run(Command::Expect(Expected::Supports(supports)))?;
    session.expect(Call::Withdraw(other), 0)?;
    alternatives(&mut session, [V0, V1, V2], size * (size - 1) + 1)?;
    session.expect(Call::Withdraw(statements[256]), 0)?;
    ask_known(
        &mut session,
        [THING, V0, V1],
        [V0, V1],
        carried(property, 257),
    )
}

/// A store that holds just this content, with spare words in each table.
fn store_of(content: &Content, spare: usize) -> Store {
    let mut store = Store::empty([
        Store::words(content.statements.len()) + spare,
        Store::words(content.facts.len()) + spare,
        Store::words(content.kept.len()) + spare,
        content.kept.len() + spare,
    ]);
    tables::write(content, &mut store);
    store
}

/// "at most 512 statements" also in a longer table: a count of 513 is malformed, and so is a word
/// after row 512.
fn statements_limit(harness: &mut Harness) -> Result<(), Failure> {
    let statements: Graph = steps(SUBCLASS, LONGEST + 1).into_iter().collect();
    let mut store = store_of(
        &Content {
            statements,
            facts: Graph::new(),
            kept: BTreeMap::new(),
        },
        30,
    );
    let mut session = Session::new(harness);
    session.lend(&store)?;
    session.expect(Call::Add([FIRST, DOMAIN, FIRST]), 1)?;
    session.expect(Call::List(Table::Statements, 0, output(3000)), 1)?;
    store.statements[0] = LONGEST;
    session.lend(&store)?;
    session.expect(Call::Add([FIRST, DOMAIN, FIRST]), 1)?;
    let used = Store::words(STATEMENTS);
    store.statements[used..].fill(0);
    session.lend(&store)?;
    session.expect(Call::Add([FIRST, DOMAIN, FIRST]), 4)?;
    let full = 3 * STATEMENTS;
    session.expect(Call::List(Table::Statements, 5, output(full)), 0)?;
    session.expect(Call::List(Table::Statements, 5, output(full - 1)), 8)
}

/// So many facts of one property and one object.
fn many_facts(count: usize, property: u32, object: u32) -> Graph {
    (0..count as u32)
        .map(|i| [THING + i, property, object])
        .collect()
}

/// 65,534 facts take one more, 65,535 none, and a count of 65,536 is malformed.
fn facts_limit(harness: &mut Harness) -> Result<(), Failure> {
    let facts = many_facts(FACTS - 1, 20, 32);
    let kept = facts.iter().map(|fact| (*fact, 1)).collect();
    let statements = Graph::new();
    let content = Content {
        statements,
        facts,
        kept,
    };
    let mut session = Session::new(harness);
    session.lend(&store_of(&content, 30))?;
    session.expect(Call::Add([1, 20, 32]), 0)?;
    session.expect(Call::Add([2, 20, 32]), 4)?;
    session.expect(Call::Add([1, 20, 32]), IDLE)?;
    session.expect(Call::List(Table::Facts, 3, output(3 * FACTS)), 0)?;
    session.expect(Call::List(Table::Facts, 4, output(3 * FACTS - 1)), 8)?;
    session.expect(Call::Withdraw([THING + 77, 20, 32]), 0)?;
    session.expect(Call::Add([u32::MAX >> 2, 20, 32]), 0)?;

    let facts = many_facts(FACTS + 1, 20, 32);
    let content = Content { facts, ..content };
    session.lend(&store_of(&content, 0))?;
    session.expect(Call::Withdraw([THING, 20, 32]), 1)?;
    session.expect(Call::List(Table::Facts, 0, output(0)), 1)
}

/// 262,143 kept facts fit and one more does not, by a fact and by a statement.
fn kept_limit(harness: &mut Harness) -> Result<(), Failure> {
    // Each fact of property 20 carries four rows; one of property 30 has seven.
    let mut statements = Graph::from([[20, 3, 21], [20, 3, 22], [20, 3, 23]]);
    statements.extend((31..=36).map(|p| [30, 3, p]));
    let mut facts = many_facts(FACTS - 2, 20, 32);
    facts.insert([1, 30, 32]);
    let kept = harness.model.supports(&statements, &facts);
    assert_eq!(kept.len(), KEPT - 4);
    let content = Content {
        statements,
        facts,
        kept,
    };
    let mut session = Session::new(harness);
    session.lend(&store_of(&content, 60))?;
    session.expect(Call::Add([1, 36, 33]), 0)?;
    session.expect(Call::Withdraw([1, 36, 33]), 0)?;
    session.expect(Call::Add([2, 20, 32]), 0)?;
    session.expect(Call::Add([30, 3, 37]), 5)?;
    session.expect(Call::Withdraw([THING + 5, 20, 32]), 0)?;
    session.expect(Call::Add([2, 30, 32]), 5)?;
    session.expect(Call::Add([30, 3, 37]), 0)?;
    session.expect(Call::Add([20, 4, 40]), 5)?;
    session.expect(Call::List(Table::Kept, 3, output(3 * KEPT)), 0)?;
    session.expect(Call::Withdraw([20, 3, 22]), 0)
}

/// A row that all 65,535 facts carry.
fn supports_limit(harness: &mut Harness) -> Result<(), Failure> {
    let statements = Graph::from([[20, 5, 16], [16, 2, 17]]);
    let facts = many_facts(FACTS - 1, 20, 32);
    let kept = harness.model.supports(&statements, &facts);
    let content = Content {
        statements,
        facts,
        kept,
    };
    let mut session = Session::new(harness);
    session.lend(&store_of(&content, 60))?;
    session.expect(Call::Add([1, 20, 32]), 0)?;
    let full = FACTS as u16;
    let supported = session.store.supports.iter().filter(|n| **n == full);
    assert_eq!(supported.count(), 2);
    session.expect(Call::Withdraw([16, 2, 17]), 0)?;
    session.expect(Call::Add([16, 2, 17]), 0)?;
    session.expect(Call::Withdraw([1, 20, 32]), 0)?;
    ask_both(&mut session, [V0, TYPE, V1], &[V0, V1], 2)
}

/// 5,460 entries and a field make 65,536 bytes; a byte more gets 9.
fn most_entries(harness: &mut Harness) -> Result<(), Failure> {
    let entries: Vec<Triple> = (0..5460).map(|i| [THING + i % 5000, 20, 32]).collect();
    let mut parts = Parts {
        sections: [vec![], vec![], vec![], entries],
        fields: vec![(9, vec![7; 3])],
    };
    let mut session = Session::new(harness);
    session.lend(&Store::empty([
        Store::words(4),
        Store::words(4990),
        Store::words(5000),
        5000,
    ]))?;
    assert_eq!(parts.bytes().len(), 65_537);
    session.expect(Call::Deliver(parts.bytes()), 9)?;
    parts.fields[0].1.pop();
    session.expect(Call::Deliver(parts.bytes()), 0)?;
    // Of 5,000 different facts 4,990 fit; the first 460 come twice.
    let result = [0, 4990, 460, 10];
    session.run(Command::Expect(Expected::Result(result)))?;
    let mut withdrawals = Parts::default();
    withdrawals.sections[1] = parts.sections[3].clone();
    session.expect(Call::Deliver(withdrawals.bytes()), 0)?;
    let result = [0, 4990, 470, 0];
    session.run(Command::Expect(Expected::Result(result)))
}

/// The longest field, the most fields, and one byte too many.
fn most_bytes(harness: &mut Harness) -> Result<(), Failure> {
    let mut session = Session::new(harness);
    session.run(empty(1, 1, 1))?;
    let field = |length| Parts {
        fields: vec![(2, vec![1; length])],
        ..Parts::default()
    };
    session.expect(Call::Deliver(field(65_522).bytes()), 0)?;
    session.expect(Call::Deliver(field(65_523).bytes()), 9)?;
    session.expect(Call::Deliver(field(65_535).bytes()), 9)?;
    let mut fields = Parts::default();
    fields.fields = vec![(2, vec![]); 16_380];
    fields.fields.push((1, 70_000u32.to_le_bytes().to_vec()));
    assert_eq!(fields.bytes().len(), 65_538);
    session.expect(Call::Deliver(fields.bytes()), 9)?;
    fields.fields.remove(3);
    session.expect(Call::Deliver(fields.bytes()), 0)?;
    let result = [70_000, 0, 0, 0];
    session.run(Command::Expect(Expected::Result(result)))?;
    // Counts that the bytes do not bear out.
    for at in [0, 2, 4, 6, 8] {
        let mut bytes = vec![0; 10];
        bytes[at] = 255;
        bytes[at + 1] = 255;
        session.expect(Call::Deliver(bytes.clone()), 9)?;
        bytes.resize(65_536, 0);
        session.expect(Call::Deliver(bytes), 9)?;
    }
    Ok(())
}

/// A question whose rows are more than the kept facts' limit.
fn most_rows(harness: &mut Harness) -> Result<(), Failure> {
    let statements: Graph = (21..=25).map(|p| [20, 3, p]).collect();
    let facts = many_facts(FACTS, 20, 32);
    let content = Content {
        statements,
        facts,
        kept: BTreeMap::new(),
    };
    let mut session = Session::new(harness);
    session.lend(&store_of(&content, 0))?;
    let words = vec![1, 2, V0, V1, 32, V0, V1];
    let rows = 6 * FACTS;
    assert!(rows > KEPT);
    let ask = |words: &[u32], room| Call::Ask(Way::Rewritten, words.to_vec(), output(room));
    session.expect(ask(&words, 2 * rows), 0)?;
    session.run(Command::Expect(Expected::Count(rows as u32)))?;
    session.expect(ask(&words, 2 * rows - 1), 8)?;
    session.expect(ask(&[1, 1, V0, 25, V1, V1], 1), 0)
}

/// Tables that have far more words than their limits of rows use.
fn long_tables(harness: &mut Harness) -> Result<(), Failure> {
    let mut session = Session::new(harness);
    session.run(Command::Empty([100_000, 300_001, 1_200_002, 500_000]))?;
    session.expect(Call::Add([16, 2, 17]), 0)?;
    session.expect(Call::Add([32, 1, 16]), 0)?;
    session.expect(Call::Add([32, 1, 16]), IDLE)?;
    ask_both(&mut session, [V0, TYPE, V1], &[V0, V1], 2)?;
    session.expect(Call::Withdraw([16, 2, 17]), 0)?;
    let mut store = session.store.clone();
    for table in Table::ALL {
        let last = store.table(table).len() - 1;
        store.table_mut(table)[last] = 1;
        session.lend(&store)?;
        session.expect(Call::Withdraw([32, 1, 16]), 1)?;
        session.expect(Call::List(table, 0, output(9)), 1)?;
        store.table_mut(table)[last] = 0;
    }
    *store.supports.last_mut().expect("there are places") = 1;
    session.lend(&store)?;
    session.expect(Call::Withdraw([32, 1, 16]), 1)
}

/// Slices of no element, with pointers that touch a closed page and with null pointers.
fn no_elements(harness: &mut Harness) -> Result<(), Failure> {
    let mut session = Session::new(harness);
    for null in [false, true] {
        session.run(Command::Nulls(null))?;
        without_elements(&mut session)?;
    }
    Ok(())
}

/// Calls on stores that lack the words of some tables.
fn without_elements(session: &mut Session) -> Result<(), Failure> {
    let question = vec![1, 1, V0, TYPE, V1, V0];
    for without in 0..16 {
        let length = |bit: usize| if without >> bit & 1 == 0 { 4 } else { 0 };
        let lengths = [length(0), length(1), length(2), length(3)];
        session.run(Command::Empty(lengths))?;
        session.call(Call::Add([16, 2, 17]))?;
        session.call(Call::Add([32, 1, 16]))?;
        session.call(Call::Withdraw([32, 1, 16]))?;
        session.call(Call::Deliver(vec![]))?;
        session.call(Call::Deliver(vec![0; 10]))?;
        for words in [vec![], question.clone()] {
            for room in [0, 2] {
                let ask = |way| Call::Ask(way, words.clone(), output(room));
                session.call(ask(Way::Kept))?;
                session.call(ask(Way::Rewritten))?;
            }
        }
        session.call(Call::Alternatives([V0, TYPE, V1], output(0)))?;
        session.call(Call::Alternatives([V0, TYPE, V1], output(6)))?;
        for table in Table::ALL {
            session.call(Call::List(table, 0, output(0)))?;
            session.call(Call::List(table, 6, output(0)))?;
        }
    }
    Ok(())
}
