//! Directed cases of closed statements (document 02, slip 4): rows worked out by hand, and chains and
//! loops of as many statements as there may be, whose rows are known in closed form.

use crate::generate::{BLANK, VARIABLE};
use crate::limits::{pairs, steps, FIRST};
use crate::model::tables::STATEMENTS;
use crate::model::terms::*;
use crate::plan::Directed;
use crate::script::{Call, Command, Way};
use crate::session::{Failure, Harness, Session};
use crate::store::Store;
use crate::windows::{ask, ask_words, lend, run_alone};
use workload::question;

const V0: u32 = VARIABLE;
const V1: u32 = VARIABLE + 1;
const V2: u32 = VARIABLE + 2;

/// All directed cases, by name.
pub const CASES: [Directed; 6] = [
    ("closed statements worked out by hand", by_hand),
    ("closed statements with no kept facts", without_kept),
    ("closed chain of subclasses", |h| {
        all_sizes(h, SUBCLASS, chain)
    }),
    ("closed chain of subproperties", |h| {
        all_sizes(h, SUBPROPERTY, chain)
    }),
    ("closed loop of subclasses", |h| {
        all_sizes(h, SUBCLASS, ring)
    }),
    ("closed loop of subproperties", |h| {
        all_sizes(h, SUBPROPERTY, ring)
    }),
];

/// A store that is grown, the atoms and the head of a question to it, and the words of its rows.
struct Worked {
    statements: &'static [Triple],
    facts: &'static [Triple],
    atoms: &'static [Triple],
    head: &'static [u32],
    rows: &'static [u32],
}

/// The shelf example of document 01.
const SHELF: &[Triple] = &[
    [16, 2, 17],
    [17, 2, 18],
    [19, 3, 20],
    [20, 4, 17],
    [20, 5, 16],
];
const SHELF_FACTS: &[Triple] = &[[32, 19, 33], [32, 1, 16]];

/// Two classes under each other; a class under itself, between two others; four classes in a diamond.
const LOOP: &[Triple] = &[[16, 2, 17], [17, 2, 16]];
const OWN: &[Triple] = &[[16, 2, 17], [17, 2, 17], [17, 2, 18]];
const DIAMOND: &[Triple] = &[[16, 2, 17], [16, 2, 18], [17, 2, 19], [18, 2, 19]];

/// 17 is class and property; a domain, and a range of a property above another, under a class.
const MIXED: &[Triple] = &[[16, 2, 17], [17, 3, 18]];
const DOMAIN_BELOW: &[Triple] = &[[20, 4, 17], [17, 2, 18]];
const RANGE_BELOW: &[Triple] = &[[19, 3, 20], [20, 5, 17], [17, 2, 18]];

/// A blank between two classes.
const BLANK_BETWEEN: &[Triple] = &[[16, 2, BLANK + 1], [BLANK + 1, 2, 18]];

/// Questions whose rows document 02 gives, or a look at its words.
const WORKED: &[Worked] = &[
    // "The example "v0 2 v1" gains 16 18."
    on_shelf(&[[V0, 2, V1]], &[V0, V1], &[16, 17, 16, 18, 17, 18]),
    on_shelf(&[[V0, 2, V0]], &[V0], &[]),
    on_shelf(&[[V0, 3, V1]], &[V0, V1], &[19, 20]),
    on_shelf(&[[16, 2, V0]], &[V0], &[17, 18]),
    on_shelf(&[[V0, 2, 18]], &[V0], &[16, 17]),
    on_shelf(&[[16, 2, 18], [V0, 19, 33]], &[V0], &[32]),
    on_shelf(&[[18, 2, 16], [V0, 19, 33]], &[V0], &[]),
    on_shelf(&[[16, V0, 18]], &[V0], &[2]),
    on_shelf(&[[V0, V1, 18]], &[V1, V0], &[1, 32, 1, 33, 2, 16, 2, 17]),
    on_shelf(&[[V0, 2, V1], [V1, 2, V2]], &[V0, V1, V2], &[16, 17, 18]),
    on_shelf(
        &[[V0, 19, V1], [V1, 1, V2], [V2, 2, 18]],
        &[V0, V1, V2],
        &[32, 33, 16, 32, 33, 17],
    ),
    // "a loop therefore joins a class to itself."
    stated(
        LOOP,
        &[[V0, 2, V1]],
        &[V0, V1],
        &[16, 16, 16, 17, 17, 16, 17, 17],
    ),
    stated(LOOP, &[[V0, 2, V0]], &[V0], &[16, 17]),
    stated(LOOP, &[[V0, V1, V0]], &[V1, V0], &[2, 16, 2, 17]),
    stated(LOOP, &[[16, V1, 16]], &[V1], &[2]),
    stated(OWN, &[[V0, 2, V0]], &[V0], &[17]),
    stated(
        OWN,
        &[[V0, 2, V1]],
        &[V0, V1],
        &[16, 17, 16, 18, 17, 17, 17, 18],
    ),
    // A pair that several ways join is one.
    stated(DIAMOND, &[[16, 2, V0]], &[V0], &[17, 18, 19]),
    stated(DIAMOND, &[[V0, 2, 19]], &[V0], &[16, 17, 18]),
    // Steps of 2 and of 3 do not mix, and "Domain and range still match as explicit".
    stated(MIXED, &[[V0, V1, 18]], &[V1, V0], &[3, 17]),
    stated(MIXED, &[[16, V1, V0]], &[V1, V0], &[2, 17]),
    stated(DOMAIN_BELOW, &[[20, 4, V0]], &[V0], &[17]),
    stated(DOMAIN_BELOW, &[[20, V1, V0]], &[V1, V0], &[4, 17]),
    stated(RANGE_BELOW, &[[V0, 5, V1]], &[V0, V1], &[20, 17]),
    // Blank classes count.
    stated(BLANK_BETWEEN, &[[16, 2, V0]], &[V0], &[18, BLANK + 1]),
    stated(BLANK_BETWEEN, &[[V0, 2, 18]], &[V0], &[16, BLANK + 1]),
    stated(BLANK_BETWEEN, &[[16, V0, 18]], &[V0], &[2]),
    // The property of an atom is 2 by another atom.
    Worked {
        facts: &[[32, 19, 33], [32, 1, 16], [40, 24, 2]],
        ..on_shelf(&[[40, 24, V0], [16, V0, V1]], &[V1], &[17, 18])
    },
    Worked {
        facts: &[[2, 24, 40], [3, 24, 41]],
        ..on_shelf(&[[V0, 24, V1], [V2, V0, 18]], &[V0, V2], &[2, 16, 2, 17])
    },
];

/// A question to the shelf example.
const fn on_shelf(atoms: &'static [Triple], head: &'static [u32], rows: &'static [u32]) -> Worked {
    Worked {
        facts: SHELF_FACTS,
        ..stated(SHELF, atoms, head, rows)
    }
}

/// A question to statements alone.
const fn stated(
    statements: &'static [Triple],
    atoms: &'static [Triple],
    head: &'static [u32],
    rows: &'static [u32],
) -> Worked {
    Worked {
        statements,
        facts: &[],
        atoms,
        head,
        rows,
    }
}

/// Each question to its store, by both ways.
fn by_hand(harness: &mut Harness) -> Result<(), Failure> {
    for worked in WORKED {
        let mut session = Session::new(harness);
        let [statements, facts, kept] = [8, 8, 16].map(Store::words);
        session.run(Command::Empty([statements, facts, kept, 16]))?;
        for triple in worked.statements.iter().chain(worked.facts) {
            session.expect(Call::Add(*triple), 0)?;
        }
        for way in Way::BOTH {
            let words = question(worked.atoms, worked.head);
            ask_words(&mut session, way, &words, worked.rows)?;
        }
    }
    Ok(())
}

/// The shelf example lent with an empty table of kept facts: the kept way closes the statements lent, and
/// takes the kept facts as they are.
fn without_kept(harness: &mut Harness) -> Result<(), Failure> {
    let mut session = Session::new(harness);
    lend(&mut session, SHELF, Way::Rewritten, SHELF_FACTS.to_vec())?;
    lend(&mut session, SHELF, Way::Kept, vec![])?;
    let (in_class, below) = ([[V0, 1, 18]], [[V0, 2, 18]]);
    ask(&mut session, Way::Kept, &below, [V0], vec![[16], [17]])?;
    ask(&mut session, Way::Kept, &in_class, [V0], vec![])?;
    ask(
        &mut session,
        Way::Rewritten,
        &in_class,
        [V0],
        vec![[32], [33]],
    )
}

/// A case with so many statements of a property.
type SizedCase = fn(&mut Session, u32, u32) -> Result<(), Failure>;

/// A few statements, which the model judges too; more than a word has bits; and numbers around those.
const FEW: u32 = 12;
const PAST_A_WORD: u32 = 65;
const AROUND_WORDS: [u32; 6] = [31, 32, 33, 63, 64, PAST_A_WORD];

/// A case with few statements, with some more, and with as many as there may be.
fn all_sizes(harness: &mut Harness, property: u32, case: SizedCase) -> Result<(), Failure> {
    case(&mut Session::new(harness), FEW, property)?;
    for n in AROUND_WORDS.into_iter().chain([STATEMENTS as u32]) {
        run_alone(harness, |session, n| case(session, n, property), n)?;
    }
    Ok(())
}

/// A chain and a loop with more statements than a word has bits, for a run under valgrind.
pub fn past_a_word(harness: &mut Harness) -> Result<(), Failure> {
    for case in [chain, ring] {
        run_alone(
            harness,
            |session, n| case(session, n, SUBCLASS),
            PAST_A_WORD,
        )?;
    }
    Ok(())
}

/// Lends statements by themselves, and asks by both ways for rows.
fn ask_stated<const N: usize>(
    session: &mut Session,
    statements: &[Triple],
    atoms: &[Triple],
    head: [u32; N],
    rows: &[[u32; N]],
) -> Result<(), Failure> {
    for way in Way::BOTH {
        lend(session, statements, way, vec![])?;
        ask(session, way, atoms, head, rows.to_vec())?;
    }
    Ok(())
}

/// A chain of n steps: each term is joined to all behind it, n · (n + 1) / 2 pairs.
fn chain(session: &mut Session, n: u32, property: u32) -> Result<(), Failure> {
    let last = FIRST + n;
    let steps = steps(property, n);
    let pairs: Vec<[u32; 2]> = pairs(property, FIRST, n).map(|[a, _, b]| [a, b]).collect();
    let below: Vec<[u32; 1]> = (FIRST..last).map(|a| [a]).collect();
    let above: Vec<[u32; 1]> = (FIRST + 1..=last).map(|b| [b]).collect();
    let (from, to) = ([FIRST, property, V1], [V0, property, last]);
    let [upward, downward] = [[FIRST, property, last], [last, property, FIRST]];
    ask_stated(session, &steps, &[[V0, property, V1]], [V0, V1], &pairs)?;
    ask_stated(session, &steps, &[[V0, V2, V1]], [V0, V1], &pairs)?;
    ask_stated(session, &steps, &[[V0, property, V0]], [V0], &[])?;
    ask_stated(session, &steps, &[[V0, V2, V0]], [V0], &[])?;
    ask_stated(session, &steps, &[from], [V1], &above)?;
    ask_stated(session, &steps, &[to], [V0], &below)?;
    ask_stated(session, &steps, &[upward, to], [V0], &below)?;
    ask_stated(session, &steps, &[downward, to], [V0], &[])?;
    let two_up = [from, [V1, property, V2]];
    ask_stated(session, &steps, &two_up, [V2], &above[1..])?;
    let two_down = [[V2, property, V0], to];
    ask_stated(session, &steps, &two_down, [V2], &below[..below.len() - 1])
}

/// A loop of n steps: each term is joined to all, itself included.
fn ring(session: &mut Session, n: u32, property: u32) -> Result<(), Failure> {
    let mut steps = steps(property, n - 1);
    steps.push([FIRST + n - 1, property, FIRST]);
    let all: Vec<[u32; 1]> = (FIRST..FIRST + n).map(|a| [a]).collect();
    let pairs: Vec<[u32; 2]> = all
        .iter()
        .flat_map(|[a]| all.iter().map(move |[b]| [*a, *b]))
        .collect();
    let there_and_back = [[V0, property, V1], [V1, property, V0]];
    ask_stated(session, &steps, &[[V0, property, V1]], [V0, V1], &pairs)?;
    ask_stated(session, &steps, &[[V0, V2, V1]], [V0, V1], &pairs)?;
    ask_stated(session, &steps, &there_and_back, [V0, V1], &pairs)?;
    ask_stated(session, &steps, &[[V0, property, V0]], [V0], &all)?;
    ask_stated(session, &steps, &[[V0, V2, V0]], [V0], &all)?;
    ask_stated(session, &steps, &[[FIRST, property, V1]], [V1], &all)?;
    ask_stated(session, &steps, &[[V0, property, FIRST]], [V0], &all)
}
