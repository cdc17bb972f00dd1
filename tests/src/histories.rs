//! Random runs: stores grown from empty, stores lent, damaged tables, and larger stores.

use crate::generate::{self, Names};
use crate::model::terms::Triple;
use crate::plan::Phase;
use crate::random::Random;
use crate::script::{Call, Command};
use crate::session::{Failure, Harness, Session};
use crate::store::Store;

/// All of them, by name.
pub const PHASES: [Phase; 5] = [
    ("grown stores", grown, 1000),
    ("lent stores", lent, 1000),
    ("damaged stores", damaged, 3000),
    ("larger stores", larger, 2),
    ("stores grown by the binding for Rust", by_binding, 100),
];

/// A number of rows, tight now and then.
fn rows(random: &mut Random, tight: &[usize], roomy: usize) -> usize {
    if random.once_in(4) {
        random.pick(tight)
    } else {
        roomy
    }
}

/// The lengths of the tables of a history.
pub fn lengths(random: &mut Random) -> [usize; 4] {
    let statements = rows(random, &[0, 1, 3, 6], 24);
    let facts = rows(random, &[0, 1, 3, 6], 20);
    let kept = rows(random, &[0, 1, 4, 10, 20], 90);
    let supports = match random.below(8) {
        0 => random.pick(&[0, 1, 3, 8, 30]),
        _ => kept + random.below(3),
    };
    [
        Store::words(statements) + random.below(3),
        Store::words(facts) + random.below(3),
        Store::words(kept) + random.below(3),
        supports,
    ]
}

/// One update or delivery.
pub fn change(random: &mut Random, names: &Names, store: &Store, withdrawals: usize) -> Call {
    if random.once_in(6) {
        Call::Deliver(generate::delivery(random, names, store))
    } else {
        generate::update(random, names, store, withdrawals)
    }
}

/// A store grown from empty, with questions, alternatives and listings on the way.
pub fn grown(harness: &mut Harness, seed: u64) -> Result<(), Failure> {
    grow(&mut Session::new(harness), seed)
}

/// The same, all calls made by the binding for Rust.
fn by_binding(harness: &mut Harness, seed: u64) -> Result<(), Failure> {
    let mut session = Session::new(harness);
    session.run(Command::Binding(true))?;
    grow(&mut session, seed)
}

/// Grows a store in a session.
fn grow(session: &mut Session, seed: u64) -> Result<(), Failure> {
    let mut random = Random::new(seed);
    let names = Names::random(&mut random);
    session.run(Command::Empty(lengths(&mut random)))?;
    let withdrawals = random.between(2, 12);
    let length = random.pick(&[10, 30, 60, 120]);
    for _ in 0..random.between(5, length) {
        let call = change(&mut random, &names, &session.store, withdrawals);
        session.call(call)?;
        if random.once_in(3) {
            generate::look(&mut random, &names, session)?;
        }
    }
    Ok(())
}

/// A well-formed store that was lent and not grown, then changed and looked at.
pub fn lent(harness: &mut Harness, seed: u64) -> Result<(), Failure> {
    let mut random = Random::new(seed);
    let names = Names::random(&mut random);
    let store = generate::lent_store(&mut random, &names, &harness.model);
    let mut session = Session::new(harness);
    session.lend(&store)?;
    for _ in 0..random.between(1, 12) {
        let call = change(&mut random, &names, &session.store, 3);
        session.call(call)?;
        if random.once_in(2) {
            generate::look(&mut random, &names, &mut session)?;
        }
    }
    Ok(())
}

/// A damaged store, and some calls on it.
pub fn damaged(harness: &mut Harness, seed: u64) -> Result<(), Failure> {
    let mut random = Random::new(seed);
    let names = Names::random(&mut random);
    let mut store = generate::lent_store(&mut random, &names, &harness.model);
    for _ in 0..random.between(1, 2) {
        generate::damage(&mut random, &mut store);
    }
    let mut session = Session::new(harness);
    session.lend(&store)?;
    let call = change(&mut random, &names, &session.store, 3);
    session.call(call)?;
    for _ in 0..3 {
        generate::look(&mut random, &names, &mut session)?;
    }
    Ok(())
}

/// Names of a larger store.
fn many_names(random: &mut Random) -> Names {
    let things = random.between(20, 400) as u32;
    Names {
        classes: (16..16 + random.between(5, 60) as u32).collect(),
        properties: (1000..1000 + random.between(3, 30) as u32).collect(),
        things: (2000..2000 + things).collect(),
        literals: (1..20).map(|n| generate::LITERAL + n).collect(),
    }
}

/// A larger store, filled by one delivery and then changed and looked at.
fn larger(harness: &mut Harness, seed: u64) -> Result<(), Failure> {
    let mut random = Random::new(seed);
    let names = many_names(&mut random);
    let statements: Vec<Triple> = (0..random.between(10, 200))
        .map(|_| generate::statement(&mut random, &names))
        .collect();
    let facts: Vec<Triple> = (0..random.between(50, 1200))
        .map(|_| generate::fact(&mut random, &names))
        .collect();
    let filling = generate::Parts {
        sections: [vec![], vec![], statements, facts],
        fields: vec![],
    };
    let kept = random.between(2000, 60_000);
    let mut session = Session::new(harness);
    session.lend(&Store::empty([
        Store::words(300),
        Store::words(2000),
        Store::words(kept),
        kept,
    ]))?;
    session.call(Call::Deliver(filling.bytes()))?;
    for _ in 0..12 {
        let call = generate::update(&mut random, &names, &session.store, 2);
        session.call(call)?;
        generate::look(&mut random, &names, &mut session)?;
    }
    Ok(())
}
