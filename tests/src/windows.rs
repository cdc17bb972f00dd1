//! Directed cases with more to gather for an atom of a question than the library gathers at once: it
//! then answers in windows of keys, or looks rows up by a scan. The cases know their rows in closed
//! form. Each is first run with little to gather, judged by the model too, which shows that the
//! closed form is right.

use crate::generate::VARIABLE;
use crate::model::terms::*;
use crate::plan::Directed;
use crate::script::{Call, Command, Expected, Output, Way};
use crate::session::{Failure, Harness, Session};
use crate::store::{Store, Table};
use workload::question;

/// The pairs of a key and a row that the library gathers at once.
const PAIRS: u32 = 63_472;

/// What a case has in place of it where the model judges.
const FEW: u32 = 40;

/// Classes and properties of the cases, and the first of their things.
const CLASS: u32 = 16;
const A: u32 = 20;
const B: u32 = 21;
const C: u32 = 22;
const D: u32 = 23;
const W: u32 = 1_000_000;
const X: u32 = 2_000_000;
const Y: u32 = 3_000_000;
const Z: u32 = 4_000_000;
const P: u32 = 5_000_000;

const VW: u32 = VARIABLE;
const VX: u32 = VARIABLE + 1;
const VY: u32 = VARIABLE + 2;
const VZ: u32 = VARIABLE + 3;
const VU: u32 = VARIABLE + 4;

/// A case with so many pairs to gather, or a few more.
type Case = fn(&mut Session, u32) -> Result<(), Failure>;

/// All cases, by name.
pub const CASES: [Directed; 24] = [
    ("windows of objects, the kept way", |h| run(h, kept_objects)),
    ("windows of objects, the rewritten way", |h| run(h, objects)),
    ("windows of one object", |h| run(h, one_object)),
    ("windows of two atoms", |h| run(h, two_atoms)),
    ("windows of things of a class", |h| run(h, things)),
    ("windows of things of two classes", |h| run(h, two_classes)),
    ("windows of classes by a range", |h| run(h, classes)),
    ("windows of a zigzag", |h| run(h, zigzag)),
    ("windows of a chain from a known end", |h| run(h, known_end)),
    ("windows of things of two variables", |h| run(h, two_variables)),
    ("windows of things by their class", |h| run(h, by_class)),
    ("windows of any property", |h| run(h, by_any_property)),
    ("windows of any property, which is known", |h| run(h, by_known_property)),
    ("windows of few matches", |h| run(h, few_matches)),
    ("windows of a property that is known", |h| run(h, by_property)),
    ("windows of a property above others", |h| run(h, by_property_above)),
    ("windows of a class that two share", |h| run(h, shared_class)),
    ("windows of an object that two share", |h| run(h, shared_object)),
    ("windows of classes that steps join", |h| run(h, joined_classes)),
    ("windows of a property that can be a step", |h| run(h, named_step)),
    ("joins by what facts give", joins_of_given),
    ("a thing with many facts", many_facts),
    ("a thing with many properties", many_properties),
    ("an object of many facts", popular_object),
];

/// Runs a case with little to gather beside the model, and with more than fits by itself.
fn run(harness: &mut Harness, case: Case) -> Result<(), Failure> {
    case(&mut Session::new(harness), FEW)?;
    run_alone(harness, case, PAIRS)
}

/// Runs a case of some size without the model.
pub fn run_alone(
    harness: &mut Harness,
    case: impl Fn(&mut Session, u32) -> Result<(), Failure>,
    size: u32,
) -> Result<(), Failure> {
    harness.model_judges = false;
    case(&mut Session::new(harness), size)?;
    harness.model_judges = true;
    Ok(())
}

/// The words of a table of these rows, which become ascending.
fn words(mut rows: Vec<Triple>) -> Vec<u32> {
    rows.sort();
    let mut words = vec![0; Store::words(rows.len())];
    words[0] = rows.len() as u32;
    words[1..].copy_from_slice(&rows.concat());
    words
}

/// Lends statements and the facts of a way, which have no spare words.
pub fn lend(
    session: &mut Session,
    statements: &[Triple],
    way: Way,
    rows: Vec<Triple>,
) -> Result<(), Failure> {
    let table = match way {
        Way::Kept => Table::Kept,
        Way::Rewritten => Table::Facts,
    };
    session.run(Command::Lend(Table::Statements, words(statements.to_vec())))?;
    session.run(Command::Lend(table, words(rows)))
}

/// Asks by a way for rows of so many words, in any order.
pub fn ask<const N: usize>(
    session: &mut Session,
    way: Way,
    atoms: &[Triple],
    head: [u32; N],
    mut rows: Vec<[u32; N]>,
) -> Result<(), Failure> {
    rows.sort();
    ask_words(session, way, &question(atoms, &head), &rows.concat())
}

/// Asks by a way for the words of rows, with some words to spare, with none and with one too few.
pub fn ask_words(
    session: &mut Session,
    way: Way,
    question: &[u32],
    rows: &[u32],
) -> Result<(), Failure> {
    let call = |words| Call::Ask(way, question.to_vec(), Output { words, fill: 99 });
    let count = rows.len() / question[1] as usize;
    for spare in [7, 0] {
        let expected = [rows, &[0; 7][..spare]].concat();
        session.expect(call(expected.len()), 0)?;
        session.run(Command::Expect(Expected::Count(count as u32)))?;
        session.run(Command::Expect(Expected::Output(expected)))?;
    }
    let Some(short) = rows.len().checked_sub(1) else {
        return Ok(());
    };
    session.expect(call(short), 8)?;
    session.run(Command::Expect(Expected::Count(0)))?;
    session.run(Command::Expect(Expected::Output(vec![0; short])))
}

/// Of n facts of A, in no order of their objects, three have each object; some of these are also
/// objects of B, each of one fact. A comes from its subproperty where that is wanted.
fn join(session: &mut Session, way: Way, n: u32, of_b: u32) -> Result<(), Failure> {
    let object = |i: u32| (u64::from(i) * 7919 % u64::from(n)) as u32 / 3;
    let step = n / 3 / of_b;
    let by = |i: u32| {
        if way == Way::Rewritten {
            A + i % 2 * 10
        } else {
            A
        }
    };
    let mut facts: Vec<Triple> = (0..n).map(|i| [X + i, by(i), Z + object(i)]).collect();
    facts.extend((0..of_b).map(|j| [Y + j, B, Z + j * step]));
    lend(session, &[[A + 10, SUBPROPERTY, A]], way, facts)?;
    let shared = |i: &u32| object(*i) % step == 0 && object(*i) / step < of_b;
    let rows = (0..n).filter(shared).map(|i| [X + i, Y + object(i) / step]);
    let atoms = [[VX, A, VZ], [VY, B, VZ]];
    ask(session, way, &atoms, [VX, VY], rows.collect())
}

/// Three windows and more by the kept way.
fn kept_objects(session: &mut Session, n: u32) -> Result<(), Failure> {
    join(session, Way::Kept, 3 * n + 7, n / 20)
}

/// Two windows by the rewritten way, whose facts are not many more than the pairs that fit.
fn objects(session: &mut Session, n: u32) -> Result<(), Failure> {
    join(session, Way::Rewritten, n + 5, 7)
}

/// One object has more facts than fit, the ones before and behind it have one each.
fn one_object(session: &mut Session, n: u32) -> Result<(), Failure> {
    let mut facts: Vec<Triple> = (0..n + 2).map(|i| [X + i, A, Z]).collect();
    facts.extend([[X - 1, A, Z - 1], [X - 2, A, Z + 1]]);
    let of_b = [(0, Z - 1), (1, Z), (2, Z), (3, Z + 1), (4, Z + 2)];
    facts.extend(of_b.map(|(j, z)| [Y + j, B, z]));
    let mut rows = vec![[X - 1, Y], [X - 2, Y + 3]];
    rows.extend((0..n + 2).flat_map(|i| [[X + i, Y + 1], [X + i, Y + 2]]));
    for way in Way::BOTH {
        lend(session, &[], way, facts.clone())?;
        let atoms = [[VX, A, VZ], [VY, B, VZ]];
        ask(session, way, &atoms, [VX, VY], rows.clone())?;
    }
    Ok(())
}

/// A chain of three atoms whose middle has few facts, so that both others are looked up by object.
fn two_atoms(session: &mut Session, n: u32) -> Result<(), Failure> {
    for (way, n) in [(Way::Kept, n + n / 2), (Way::Rewritten, n / 2 + 2)] {
        // Two facts of A and of C have each object.
        let mut facts: Vec<Triple> = (0..n).map(|i| [W + i, C, Y + i / 2]).collect();
        facts.extend((0..n).map(|i| [X + i, A, Z + (n - 1 - i) / 2]));
        let step = n / 2 / 5;
        let middle = (0..5).map(|j| j * step);
        facts.extend(middle.clone().map(|at| [Y + at, B, Z + at]));
        lend(session, &[], way, facts)?;
        let atoms = [[VX, A, VZ], [VY, B, VZ], [VW, C, VY]];
        let of = |at: u32| {
            [0, 1, 2, 3].map(|k| [X + n - 1 - 2 * at - k / 2, Y + at, W + 2 * at + k % 2])
        };
        ask(
            session,
            way,
            &atoms,
            [VX, VY, VW],
            middle.flat_map(of).collect(),
        )?;
    }
    Ok(())
}

/// Facts whose subjects and objects all have a class, by domain and range: twice as many things.
fn things_of(n: u32) -> (Vec<Triple>, Vec<Triple>) {
    let statements = vec![
        [A, DOMAIN, CLASS],
        [A, RANGE, CLASS],
        [CLASS, SUBCLASS, CLASS + 1],
    ];
    let facts = (0..n).map(|i| [X + i, A, X + 2 * n - 1 - i]).collect();
    (statements, facts)
}

/// The things of a class, looked up by a thing that is known: a variable's and a named one.
fn things(session: &mut Session, n: u32) -> Result<(), Failure> {
    let (statements, mut facts) = things_of(n);
    let step = 2 * n / 8;
    facts.extend((0..8).map(|j| [Y + j, B, X + j * step]));
    facts.extend([
        [Y + 8, B, X + 2 * n - 1],
        [Y + 9, B, X + 2 * n],
        [Y + 10, B, X - 1],
    ]);
    let way = Way::Rewritten;
    lend(session, &statements, way, facts)?;
    let of_b = (0..9).map(|j| (Y + j, if j < 8 { X + j * step } else { X + 2 * n - 1 }));
    let rows = of_b.map(|(y, x)| [y, x]).collect();
    let atoms = [[VY, B, VX], [VX, TYPE, CLASS + 1]];
    ask(session, way, &atoms, [VY, VX], rows)?;
    let last = X + 2 * n - 1;
    let atoms = [[last, TYPE, CLASS + 1], [X, TYPE, CLASS], [Y + 9, B, VX]];
    ask(session, way, &atoms, [VX], vec![[X + 2 * n]])
}

/// The things of two classes, each more than fit, of which all but one are the same.
fn two_classes(session: &mut Session, n: u32) -> Result<(), Failure> {
    let (statements, mut facts) = things_of(n);
    facts.extend([[Y, TYPE, CLASS], [Y + 1, TYPE, CLASS + 1]]);
    let way = Way::Rewritten;
    lend(session, &statements, way, facts)?;
    let rows = (0..2 * n).map(|i| [X + i]).chain([[Y]]);
    let atoms = [[VX, TYPE, CLASS + 1], [VX, TYPE, CLASS]];
    ask(session, way, &atoms, [VX], rows.collect())
}

/// Classes by a range, looked up by the thing: of many things, and of one that all facts have.
fn classes(session: &mut Session, n: u32) -> Result<(), Failure> {
    let statements = [[A, RANGE, CLASS], [CLASS, SUBCLASS, CLASS + 1]];
    let way = Way::Rewritten;
    for spread in [1, 0] {
        let mut facts: Vec<Triple> = (0..n + 5)
            .map(|i| [X + i, A, Z + (n + 4 - i) * spread])
            .collect();
        let step = n / 5 * spread;
        facts.extend((0..5).map(|j| [Y + j, B, Z + j * step]));
        lend(session, &statements, way, facts)?;
        let of = |j: u32| [CLASS, CLASS + 1].map(|class| [Y + j, Z + j * step, class]);
        let rows: Vec<[u32; 3]> = (0..5).flat_map(of).collect();
        let atoms = [[VY, B, VZ], [VZ, TYPE, VX]];
        ask(session, way, &atoms, [VY, VZ, VX], rows.clone())?;
        // By a variable property, which can be rdf:type alone.
        let rows = rows
            .iter()
            .map(|[y, z, class]| [*y, *z, TYPE, *class])
            .collect();
        let atoms = [[VY, B, VZ], [VZ, VW, VX]];
        ask(session, way, &atoms, [VY, VZ, VW, VX], rows)?;
    }
    Ok(())
}

/// Two shared objects, one after the other: things 2j and 2j + 1 share an object of A, and things
/// 2j - 1 and 2j one of B, in the other order. Only keys that the atoms before give are gathered.
fn zigzag(session: &mut Session, n: u32) -> Result<(), Failure> {
    for (way, n) in [(Way::Kept, n + n / 2), (Way::Rewritten, n / 2 + 2)] {
        let mut facts: Vec<Triple> = (0..n).map(|i| [X + i, A, Z + i / 2]).collect();
        facts.extend((0..n).map(|i| [X + i, B, Y + n - (i + 1) / 2]));
        lend(session, &[], way, facts)?;
        let atoms = [[VW, A, VZ], [VX, A, VZ], [VX, B, VY], [VU, B, VY]];
        let of = |i: u32| {
            let first = (i / 2 * 2).saturating_sub(1);
            (first..n.min(i / 2 * 2 + 3)).map(move |k| [X + i, X + k])
        };
        let rows = (0..n).flat_map(of).collect();
        ask(session, way, &atoms, [VW, VU], rows)?;
    }
    Ok(())
}

/// A chain whose last object is known: thing i has thing i / 2, so that few keys are given.
fn known_end(session: &mut Session, n: u32) -> Result<(), Failure> {
    for (way, n) in [(Way::Kept, 3 * n + 7), (Way::Rewritten, n + 5)] {
        let facts = (0..n).map(|i| [X + i, A, X + i / 2]).collect();
        lend(session, &[], way, facts)?;
        let end = (n - 8) / 9;
        let atoms = [[VZ, A, X + end], [VY, A, VZ], [VX, A, VY]];
        let rows = (0..8).map(|k| [X + 8 * end + k]).collect();
        ask(session, way, &atoms, [VX], rows)?;
    }
    Ok(())
}

/// The things of two classes, looked up by two variables: for all facts, and for few.
fn two_variables(session: &mut Session, n: u32) -> Result<(), Failure> {
    let n = n - 20;
    let statements = [[A, DOMAIN, CLASS], [A, RANGE, CLASS + 1]];
    let mut facts: Vec<Triple> = (0..n).map(|i| [X + i, A, Y + n - 1 - i]).collect();
    let few = (0..7).map(|j| [X + j * (n / 7), B, Y + j * (n / 7)]);
    facts.extend(few.clone().chain([[W, B, Y], [X, B, W]]));
    let way = Way::Rewritten;
    lend(session, &statements, way, facts)?;
    let all = (0..n).map(|i| [X + i, Y + n - 1 - i]).collect();
    for (property, rows) in [(A, all), (B, few.map(|[x, _, y]| [x, y]).collect())] {
        let atoms = [[VX, TYPE, CLASS], [VY, TYPE, CLASS + 1], [VX, property, VY]];
        ask(session, way, &atoms, [VX, VY], rows)?;
    }
    Ok(())
}

/// Two things are of each class, and some classes are objects of B, each of one fact: facts, and what
/// each such fact is joined to, the number of the class and the two things.
fn classified(things: u32, of_b: u32) -> (Vec<Triple>, Vec<[u32; 2]>) {
    let step = things / 2 / of_b;
    let mut facts: Vec<Triple> = (0..things).map(|i| [X + i, TYPE, Z + (things - 1 - i) / 2]).collect();
    facts.extend((0..of_b).map(|j| [Y + j, B, Z + j * step]));
    let of = |j: u32| [0, 1].map(|k| [Y + j, X + things - 1 - 2 * j * step - k]);
    (facts, (0..of_b).flat_map(of).collect())
}

/// By each way many things and few facts of B, and as many facts of B as classes.
fn sizes(n: u32) -> [(Way, u32, u32); 4] {
    let small = n / 2;
    [
        (Way::Kept, 2 * n, 5),
        (Way::Kept, 2 * n, n),
        (Way::Rewritten, n - 9, 5),
        (Way::Rewritten, small, small / 2),
    ]
}

/// The class of a thing is looked up by the class, which is known.
fn by_class(session: &mut Session, n: u32) -> Result<(), Failure> {
    for (way, things, of_b) in sizes(n) {
        let (facts, rows) = classified(things, of_b);
        lend(session, &[], way, facts)?;
        let atoms = [[VY, B, VZ], [VX, TYPE, VZ]];
        ask(session, way, &atoms, [VY, VX], rows)?;
    }
    Ok(())
}

/// Facts of any property, and statements, are looked up by the object, which is known.
fn by_any_property(session: &mut Session, n: u32) -> Result<(), Failure> {
    for (way, things, of_b) in sizes(n) {
        let (facts, rows) = classified(things, of_b);
        lend(session, &[[CLASS, SUBCLASS, Z]], way, facts)?;
        let mut rows: Vec<[u32; 3]> = rows.iter().map(|[y, x]| [*y, TYPE, *x]).collect();
        rows.extend((0..of_b).map(|j| [Y + j, B, Y + j]));
        rows.push([Y, SUBCLASS, CLASS]);
        let atoms = [[VY, B, VZ], [VX, VU, VZ]];
        ask(session, way, &atoms, [VY, VU, VX], rows)?;
    }
    Ok(())
}

/// The same by a property that is known too: thing i and its neighbour share an object of A or B.
fn by_known_property(session: &mut Session, n: u32) -> Result<(), Failure> {
    let n = n + n / 2;
    let by = |i: u32| if i / 2 % 2 == 0 { A } else { B };
    let facts = (0..n).map(|i| [X + i, by(i), Z + (n - 1 - i) / 4]).collect();
    lend(session, &[], Way::Kept, facts)?;
    let alike = |i: u32, k: u32| by(i) == by(k) && (n - 1 - i) / 4 == (n - 1 - k) / 4;
    let near = |i: u32| i.saturating_sub(3)..n.min(i + 4);
    let of = |i: u32| near(i).filter(move |&k| alike(i, k)).map(move |k| [X + i, X + k]);
    let rows = (0..n).flat_map(of).collect();
    let atoms = [[VX, VU, VZ], [VY, VU, VZ]];
    ask(session, Way::Kept, &atoms, [VX, VY], rows)
}

/// A named thing has a few objects, or some more, that many facts have too: of one property, of
/// rdf:type and of any.
fn few_matches(session: &mut Session, n: u32) -> Result<(), Failure> {
    for (way, n) in [(Way::Kept, 3 * n + 7), (Way::Rewritten, n / 2 + 90)] {
        for few in [3, 16, 17, 40] {
            for property in [A, TYPE] {
                let mut facts: Vec<Triple> = (0..n).map(|i| [X + i, property, Z + i / 2]).collect();
                let step = (n - 2) / 2 / few;
                facts.extend((0..few).map(|j| [W, B, Z + j * step]));
                lend(session, &[], way, facts)?;
                let things = (0..few).flat_map(|j| [0, 1].map(|k| [X + 2 * j * step + k]));
                let mut rows: Vec<[u32; 1]> = things.collect();
                ask(session, way, &[[W, B, VZ], [VX, property, VZ]], [VX], rows.clone())?;
                rows.push([W]);
                ask(session, way, &[[W, B, VZ], [VX, VU, VZ]], [VX], rows)?;
            }
        }
    }
    Ok(())
}

/// Facts are looked up by their property alone, which is known; two facts have each.
fn by_property(session: &mut Session, n: u32) -> Result<(), Failure> {
    for (way, things, of_a) in sizes(n) {
        let step = things / 2 / of_a;
        let mut facts: Vec<Triple> = (0..things).map(|i| [W + i, P + (things - 1 - i) / 2, Z + i]).collect();
        facts.extend((0..of_a).map(|j| [X + j, A, P + j * step]));
        lend(session, &[], way, facts)?;
        let of = |j: u32| [0, 1].map(|k| things - 1 - 2 * j * step - k).map(|i| [X + j, W + i, Z + i]);
        let rows: Vec<[u32; 3]> = (0..of_a).flat_map(of).collect();
        ask(session, way, &[[VX, A, VY], [VW, VY, VZ]], [VX, VW, VZ], rows)?;
        // Beside a named object.
        let i = things - 1;
        ask(session, way, &[[VX, A, VY], [VW, VY, Z + i]], [VX, VW], vec![[X, W + i]])?;
    }
    Ok(())
}

/// The same by properties above those of the facts, so that each fact has two keys.
fn by_property_above(session: &mut Session, n: u32) -> Result<(), Failure> {
    let (each, of_a) = (n / 200 + 1, 60);
    let below = |i: u32| P + i / each;
    let n = 100 * each;
    let statements: Vec<Triple> = (0..100).map(|k| [P + k, SUBPROPERTY, P + 100 + k]).collect();
    let mut facts: Vec<Triple> = (0..n).map(|i| [W + i, below(i), Z + i]).collect();
    facts.extend((0..of_a).map(|j| [X + j, A, P + 100 + j % 7]));
    facts.extend([[X + of_a, A, P], [X + of_a + 1, A, TYPE]]);
    let way = Way::Rewritten;
    lend(session, &statements, way, facts)?;
    let of = |k: u32| (k * each..(k + 1) * each).map(|i| [W + i, Z + i]);
    let rows = (0..7).flat_map(of).collect();
    ask(session, way, &[[VX, A, VY], [VW, VY, VZ]], [VW, VZ], rows)
}

/// Two things share each class, and a class by a domain has all of them, more than fit.
fn shared_class(session: &mut Session, n: u32) -> Result<(), Failure> {
    let few = n / 8;
    let n = n - few - 9;
    let mut facts: Vec<Triple> = (0..n).map(|i| [X + i, A, Z + i / 2]).collect();
    facts.extend((0..few).map(|j| [Y + j, B, Z + j * 2]));
    facts.push([Y + few, B, CLASS]);
    let way = Way::Rewritten;
    lend(session, &[[A, DOMAIN, CLASS]], way, facts)?;
    let of = |j: u32| [0, 1].map(|k| [Y + j, A, X + 4 * j + k]);
    let mut rows: Vec<[u32; 3]> = (0..few).flat_map(of).collect();
    rows.extend((0..few).map(|j| [Y + j, B, Y + j]));
    rows.extend((0..n).map(|i| [Y + few, TYPE, X + i]));
    rows.extend([[Y + few, B, Y + few], [Y + few, DOMAIN, A]]);
    ask(session, way, &[[VY, B, VZ], [VX, VU, VZ]], [VY, VU, VX], rows)?;
    let rows = (0..n).map(|i| [X + i]).collect();
    ask(session, way, &[[VY, B, VZ], [VX, TYPE, VZ]], [VX], rows)
}

/// Two things share each object, by rdf:type and by any property, and nothing else is known.
fn shared_object(session: &mut Session, n: u32) -> Result<(), Failure> {
    for (way, n) in [(Way::Kept, n + n / 2), (Way::Rewritten, n - 9)] {
        for property in [TYPE, A] {
            let facts = (0..n).map(|i| [X + i, property, Z + (n - 1 - i) / 2]).collect();
            lend(session, &[], way, facts)?;
            let alike = |i: u32| (0..2).map(move |k| n - 1 - ((n - 1 - i) / 2 * 2 + k) % n).filter(move |&k| (n - 1 - k) / 2 == (n - 1 - i) / 2);
            let rows: Vec<[u32; 2]> = (0..n).flat_map(|i| alike(i).map(move |k| [X + i, X + k])).collect();
            ask(session, way, &[[VX, property, VZ], [VY, property, VZ]], [VX, VY], rows.clone())?;
            ask(session, way, &[[VX, VU, VZ], [VY, VW, VZ]], [VX, VY], rows)?;
        }
    }
    Ok(())
}

/// The steps of a chain of subclasses.
const STEPS: u32 = 12;

/// A chain of subclasses from Z on.
fn subclasses() -> Vec<Triple> {
    (Z..Z + STEPS).map(|class| [class, SUBCLASS, class + 1]).collect()
}

/// Some of many facts have a class of a chain as their object, which the subclasses lead to, by their
/// property and by any.
fn joined_classes(session: &mut Session, n: u32) -> Result<(), Failure> {
    for (way, n) in [(Way::Kept, n + n / 2), (Way::Rewritten, n - 9)] {
        let object = |i: u32| if i % 16 == 0 { Z + i / 16 % (STEPS + 1) } else { Y + i / 2 };
        let facts = (0..n).map(|i| [X + i, A, object(i)]).collect();
        lend(session, &subclasses(), way, facts)?;
        let rows: Vec<[u32; 2]> = (0..n).flat_map(|i| (Z..object(i)).map(move |class| [X + i, class])).collect();
        ask(session, way, &[[VX, A, VZ], [VY, SUBCLASS, VZ]], [VX, VY], rows.clone())?;
        let atoms = [[VX, A, VZ], [VY, VU, VZ], [VY, SUBCLASS, Z + STEPS]];
        ask(session, way, &atoms, [VX, VY], rows)?;
    }
    Ok(())
}

/// A property is looked up that is named by facts: that of many facts, or that of steps.
fn named_step(session: &mut Session, n: u32) -> Result<(), Failure> {
    for (way, n) in [(Way::Kept, n + n / 2), (Way::Rewritten, n - 9)] {
        let mut facts: Vec<Triple> = (0..n).map(|i| [X + i, A, Y + i / 2]).collect();
        facts.extend([[W, B, A], [W + 1, B, SUBCLASS], [W + 2, B, SUBPROPERTY]]);
        lend(session, &subclasses(), way, facts)?;
        let pairs = (Z..Z + STEPS).flat_map(|a| (a + 1..=Z + STEPS).map(move |b| [W + 1, a, b]));
        let rows = (0..n).map(|i| [W, X + i, Y + i / 2]).chain(pairs).collect();
        ask(session, way, &[[VW, B, VU], [VX, VU, VY]], [VW, VX, VY], rows)?;
    }
    Ok(())
}

/// What facts give by properties above their own and by domains, ranges and classes above, looked up by
/// its object, by its class and by its property, with each and with none named beside it.
fn joins_of_given(harness: &mut Harness) -> Result<(), Failure> {
    let statements = [
        [A, SUBPROPERTY, B],
        [B, SUBPROPERTY, C],
        [B, DOMAIN, CLASS],
        [A, RANGE, CLASS + 1],
        [CLASS, SUBCLASS, CLASS + 2],
        [CLASS + 1, SUBCLASS, CLASS + 2],
    ];
    let mut facts: Vec<Triple> = (0..40).map(|i| [X + i, A + i % 3, Z + i % 7]).collect();
    facts.extend((0..30).map(|i| [Y + i, TYPE, CLASS + i % 5]));
    facts.extend((0..20).map(|i| [W + i, D, [A, B, C, TYPE, Z, CLASS, CLASS + 2, X][i as usize % 8]]));
    facts.extend([[X, TYPE, Z], [Z, A, Z], [Z, TYPE, A]]);
    for way in Way::BOTH {
        let session = &mut Session::new(harness);
        lend(session, &statements, way, facts.clone())?;
        for other in [VU, TYPE, A, C] {
            judged(session, way, &[[VX, D, VZ], [VY, other, VZ]], &[VX, VY])?;
            judged(session, way, &[[VX, TYPE, VZ], [VY, other, VZ]], &[VZ, VY])?;
            judged(session, way, &[[VX, VW, VZ], [VY, other, VZ]], &[VZ, VY])?;
            judged(session, way, &[[VX, VW, VZ], [VY, VW, VZ], [VX, other, VU]], &[VZ, VW])?;
        }
        for object in [VY, Z, CLASS, CLASS + 2, A] {
            judged(session, way, &[[VX, D, VU], [VZ, VU, object]], &[VU, VZ])?;
            judged(session, way, &[[VX, D, VU], [VZ, VU, object], [VZ, TYPE, VW]], &[VU, VW])?;
        }
        judged(session, way, &[[VX, D, VU], [VZ, VU, VX]], &[VU, VZ])?;
        judged(session, way, &[[VX, D, VU], [VZ, VU, VU]], &[VU, VZ])?;
        judged(session, way, &[[VX, D, VU], [VU, VU, VZ]], &[VU, VZ])?;
    }
    Ok(())
}

/// How many facts of one property stand one behind the other: less than the library passes at once, as many, and more.
const RUNS: [u32; 7] = [1, 31, 32, 33, 34, 65, 300];

/// One thing has facts of few and of many properties, so many of each, also of rdf:type; a property
/// is below another that has a domain and a range. Each question knows the thing, beside its
/// neighbours, which have few facts.
fn many_facts(harness: &mut Harness) -> Result<(), Failure> {
    let statements = [
        [A, SUBPROPERTY, B],
        [B, DOMAIN, CLASS],
        [A, RANGE, CLASS + 1],
        [CLASS, SUBCLASS, CLASS + 2],
    ];
    for (properties, each) in RUNS.map(|each| (3, each)).into_iter().chain([(40, 3), (9, 40)]) {
        let mut facts: Vec<Triple> = vec![[X - 1, A, Z], [X + 1, A, Z], [X, TYPE, CLASS + 3]];
        let of = |p: u32| (0..each).map(move |i| [X, A + p, Z + i * 2]);
        facts.extend((0..properties).flat_map(of));
        facts.extend((0..each).map(|i| [X, TYPE, CLASS + 4 + i]));
        for way in Way::BOTH {
            let session = &mut Session::new(harness);
            lend(session, &statements, way, facts.clone())?;
            for object in [Z - 2, Z, Z + 1, Z + each - each % 2, Z + each * 2 - 2, Z + each * 2, CLASS, CLASS + 4] {
                judged(session, way, &[[X, VY, object]], &[VY])?;
                judged(session, way, &[[X, A + 1, object], [X, VY, object]], &[VY])?;
            }
            judged(session, way, &[[X, A + properties - 1, VY]], &[VY])?;
            judged(session, way, &[[X, A + properties, VY]], &[VY])?;
            judged(session, way, &[[X, TYPE, VY]], &[VY])?;
            judged(session, way, &[[X, VY, VZ]], &[VY, VZ])?;
            judged(session, way, &[[VX, A, VY], [VX, VZ, VY]], &[VX, VY, VZ])?;
            judged(session, way, &[[VX, A, VY], [VX, TYPE, VZ]], &[VX, VZ])?;
        }
    }
    Ok(())
}

/// One thing has facts of few or of many properties, of which some have a class as their object that statements
/// name, and some one that they do not. Each question knows the thing and an object, and not the property.
fn many_properties(harness: &mut Harness) -> Result<(), Failure> {
    let statements = [
        [A, SUBPROPERTY, B],
        [B, DOMAIN, CLASS],
        [CLASS, SUBCLASS, CLASS + 1],
        [C, RANGE, CLASS + 2],
    ];
    for n in [1, 2, 3, 30, 31, 150] {
        let mut facts: Vec<Triple> = (0..n).flat_map(|i| [[X, A, Z + i], [X, P + i, Z + i * 2]]).collect();
        facts.extend([[X, P, CLASS], [X, P + 1, CLASS + 3], [X, TYPE, CLASS + 4], [X, C, X], [X + 1, A, Z]]);
        for way in Way::BOTH {
            let session = &mut Session::new(harness);
            lend(session, &statements, way, facts.clone())?;
            for object in [Z, Z + 1, Z + n * 2 - 2, Z + n * 2, X].into_iter().chain(CLASS..CLASS + 6) {
                judged(session, way, &[[X, VZ, object]], &[VZ])?;
                judged(session, way, &[[VX, VZ, object]], &[VX, VZ])?;
            }
            for property in [VU, TYPE, A, B, C] {
                judged(session, way, &[[VX, property, VY], [VX, VZ, VY]], &[VX, VY, VZ])?;
                judged(session, way, &[[VX, property, VY], [X, VZ, VY]], &[VX, VY, VZ])?;
            }
        }
    }
    Ok(())
}

/// One object has many facts of few and of many properties, of which some give it classes.
fn popular_object(harness: &mut Harness) -> Result<(), Failure> {
    for (properties, each) in [(1, 300), (4, 33), (60, 3)] {
        let mut statements: Vec<Triple> = (0..properties)
            .filter(|p| p % 3 != 1)
            .map(|p| [A + p, RANGE, CLASS + p])
            .collect();
        statements.push([CLASS, SUBCLASS, CLASS + 100]);
        let of = |p: u32| (0..each).map(move |i| [X + i, A + p, Z + p % 2 * (i % 2)]);
        let facts: Vec<Triple> = (0..properties).flat_map(of).collect();
        let way = Way::Rewritten;
        let session = &mut Session::new(harness);
        lend(session, &statements, way, facts)?;
        for p in [0, properties - 1] {
            judged(session, way, &[[VX, A + p, VY], [VY, TYPE, VZ]], &[VX, VY, VZ])?;
            judged(session, way, &[[VX, A + p, VY], [VY, VW, VZ]], &[VX, VY, VW, VZ])?;
        }
        judged(session, way, &[[Z, TYPE, VY]], &[VY])?;
        judged(session, way, &[[Z + 1, VW, VY]], &[VW, VY])?;
    }
    Ok(())
}

/// Asks by a way beside the model, which alone knows the rows.
fn judged(session: &mut Session, way: Way, atoms: &[Triple], head: &[u32]) -> Result<(), Failure> {
    let output = Output {
        words: 20_000,
        fill: 99,
    };
    session.expect(Call::Ask(way, question(atoms, head), output), 0)
}
