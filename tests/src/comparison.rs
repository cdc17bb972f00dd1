//! The library beside Apache Jena: many small stores, a large one, and rules made wrong.

use crate::generate::{self, Names, Parts};
use crate::histories;
use crate::kept;
use crate::model::tables::{self, Content};
use crate::model::terms::*;
use crate::random::{case_seed, Random};
use crate::script::{Call, Command, Expected, Output, Way};
use crate::session::{Failure, Harness, Session};
use crate::store::{rows_of, Store, Table};
use std::collections::BTreeMap;
use std::path::Path;
use std::time::Instant;
use workload::{question, variable, CLASS, PROPERTY, THING};

/// The rules that Jena is given.
const RULES: &str = "peers/jena/rdfs.rules";

/// A deliberate fault in the rules: its name, and a text that is put in place of another.
type Fault = (&'static str, &'static str, &'static str);

/// Each rule left out; the guard of range on domain too. (Without the guard of range nothing would
/// differ: Jena itself drops a conclusion whose subject is a literal.)
pub const FAULTS: [Fault; 7] = [
    ("no-domain", "[rdfs2:", "# [rdfs2:"),
    ("no-range", "[rdfs3:", "# [rdfs3:"),
    ("no-subproperty", "[rdfs7:", "# [rdfs7:"),
    ("no-subclass", "[rdfs9:", "# [rdfs9:"),
    (
        "guard-domain",
        "(?a ?p ?b) -> (?a rdf:type ?c)",
        "(?a ?p ?b), notLiteral(?b) -> (?a rdf:type ?c)",
    ),
    ("no-rdfs5", "[rdfs5:", "# [rdfs5:"),
    ("no-rdfs11", "[rdfs11:", "# [rdfs11:"),
];

/// The faults that change no fact: rows of questions alone show them.
const OF_STATEMENTS: [&str; 2] = ["no-rdfs5", "no-rdfs11"];

/// The small stores in which a planted fault must be found.
const STORES_FOR_A_FAULT: u64 = 100;

/// The phase number of the small stores' seeds.
const PHASE: u64 = 16;

/// Puts a question by both ways, into outputs with room for so many rows.
fn ask(session: &mut Session, words: &[u32], rows: usize) -> Result<(), Failure> {
    let output = Output {
        words: rows * words.get(1).map_or(1, |m| (*m).clamp(1, 8) as usize),
        fill: 1,
    };
    for way in Way::BOTH {
        session.call(Call::Ask(way, words.to_vec(), output))?;
    }
    Ok(())
}

/// The lengths of the tables of a small store: tight ones now and then.
fn lengths(random: &mut Random) -> [usize; 4] {
    if random.once_in(4) {
        return histories::lengths(random);
    }
    [Store::words(60), Store::words(80), Store::words(800), 800]
}

/// Names in a line: many classes and properties, and few things.
fn lined_names(random: &mut Random) -> Names {
    let length = random.between(2, 15) as u32;
    Names {
        classes: (100..100 + length).chain([generate::BLANK + 1]).collect(),
        properties: (200..200 + length).collect(),
        things: (32..32 + random.between(1, 6) as u32).collect(),
        literals: vec![generate::LITERAL + 1],
    }
}

/// A delivery that makes a chain of the classes and one of the properties, or a loop of each, and
/// gives many facts one object.
fn backbone(random: &mut Random, names: &Names) -> Call {
    let mut statements = Vec::new();
    for (step, line) in [(SUBCLASS, &names.classes), (SUBPROPERTY, &names.properties)] {
        statements.extend(line.windows(2).map(|pair| [pair[0], step, pair[1]]));
        if random.once_in(2) {
            statements.push([line[line.len() - 1], step, line[0]]);
        }
    }
    let last = names.properties[names.properties.len() - 1];
    statements.push([last, random.pick(&[DOMAIN, RANGE]), names.classes[0]]);
    let hub = random.pick(&names.things);
    let facts = names
        .things
        .iter()
        .map(|thing| [*thing, names.properties[0], hub]);
    let sections = [vec![], vec![], statements, facts.collect()];
    let fields = vec![];
    Call::Deliver(Parts { sections, fields }.bytes())
}

/// Puts some questions to the store as it is.
fn ask_some(random: &mut Random, names: &Names, session: &mut Session) -> Result<(), Failure> {
    for _ in 0..4 {
        let model = session.harness.model;
        let words = generate::question(random, names, &model, &session.store);
        let rows = model.ask(&session.store, Way::Kept, &words);
        ask(session, &words, rows.map_or(0, |r| r.len()))?;
    }
    Ok(())
}

/// A small store grown from empty, asked some questions now and then.
fn small(harness: &mut Harness, seed: u64) -> Result<(), Failure> {
    let mut random = Random::new(seed);
    let lined = random.once_in(3);
    let names = if lined {
        lined_names(&mut random)
    } else {
        Names::random(&mut random)
    };
    let mut session = Session::new(harness);
    session.run(Command::Empty(lengths(&mut random)))?;
    if lined {
        session.call(backbone(&mut random, &names))?;
    }
    let withdrawals = random.between(2, 12);
    for _ in 0..3 {
        for _ in 0..random.between(4, 40) {
            let call = histories::change(&mut random, &names, &session.store, withdrawals);
            session.call(call)?;
        }
        ask_some(&mut random, &names, &mut session)?;
    }
    Ok(())
}

/// The statements and facts of the large store, the facts that come and go, those that one delivery
/// has, and more rows than a question to the store has.
const STATEMENTS: usize = 200;
const FACTS: usize = 20_000;
const WITHDRAWN: usize = 500;
const ENTRIES: usize = 5_000;
const ROWS: usize = 500_000;

/// Makes a delivery of its sections, which must be accepted.
fn deliver(session: &mut Session, sections: [Vec<Triple>; 4]) -> Result<(), Failure> {
    let fields = vec![];
    session.expect(Call::Deliver(Parts { sections, fields }.bytes()), 0)
}

/// The large store: filled by deliveries, some facts withdrawn by one, and its explicit triples as
/// they must then be.
fn fill(session: &mut Session) -> Result<(), Failure> {
    let statements = workload::statements(STATEMENTS);
    let mut facts = workload::facts(FACTS + WITHDRAWN, STATEMENTS, workload::DENSE, 7);
    Random::new(7).shuffle(&mut facts);
    let lengths = [tables::STATEMENTS, tables::FACTS, tables::KEPT].map(Store::words);
    session.run(Command::Empty([
        lengths[0],
        lengths[1],
        lengths[2],
        tables::KEPT,
    ]))?;
    deliver(session, [vec![], vec![], statements.clone(), vec![]])?;
    for some in facts.chunks(ENTRIES) {
        deliver(session, [vec![], vec![], vec![], some.to_vec()])?;
    }
    deliver(session, [vec![], facts.split_off(FACTS), vec![], vec![]])?;
    let mut explicit = session.store.clone();
    let content = Content {
        statements: statements.into_iter().collect(),
        facts: facts.into_iter().collect(),
        kept: BTreeMap::new(),
    };
    tables::write(&content, &mut explicit);
    for table in [Table::Statements, Table::Facts] {
        let words = explicit.table(table).clone();
        session.run(Command::Expect(Expected::Table(table, words)))?;
    }
    Ok(())
}

/// Questions to the large store, beside those of the benchmark.
fn more_questions() -> Vec<Vec<u32>> {
    let [x, y, z, p] = [0, 1, 2, 3].map(variable);
    vec![
        question(&[[THING + 17, p, x]], &[p, x]),
        question(&[[x, p, THING + 17]], &[x, p, x]),
        question(&[[p, DOMAIN, y], [THING + 17, p, x]], &[p, y, x]),
        question(&[[p, RANGE, y], [x, p, z], [x, TYPE, y]], &[p, y]),
        question(&[[x, SUBCLASS, y]], &[x, y]),
        question(&[[x, SUBPROPERTY, y]], &[x, y]),
        question(&[[x, SUBCLASS, y], [y, SUBCLASS, CLASS]], &[x]),
        question(&[[x, p, CLASS + 1], [y, p, x]], &[p, x, y]),
        question(
            &[
                [p, SUBPROPERTY, PROPERTY],
                [x, p, y],
                [y, TYPE, CLASS + 40],
                [CLASS + 40, SUBCLASS, z],
            ],
            &[x, z],
        ),
        question(&[[x, p, x]], &[p, x]),
        question(
            &[[x, TYPE, CLASS + 40], [y, SUBPROPERTY, PROPERTY + 1]],
            &[y, x],
        ),
    ]
}

/// The large store and its questions, judged by Jena alone.
fn large(harness: &mut Harness) -> Result<(), Failure> {
    harness.model_judges = false;
    let mut session = Session::new(harness);
    fill(&mut session)?;
    let store = &session.store;
    let (facts, statements, kept) = (store.facts[0], store.statements[0], store.kept[0]);
    println!("a store of {facts} facts, {statements} statements and {kept} kept rows");
    let facts: Vec<Triple> = rows_of(&store.facts).collect();
    let questions = workload::questions(&facts);
    let questions = questions.into_iter().map(|(_, words)| words);
    for words in questions.chain(more_questions()) {
        ask(&mut session, &words, ROWS)?;
        session.run(Command::Expect(Expected::Number(0)))?;
        println!(
            "  {} atoms: {} rows by both ways",
            words[0], session.last.count
        );
    }
    Ok(())
}

/// Gives Jena the rules with a fault, by way of a file.
pub fn plant(harness: &mut Harness, (name, from, to): Fault, path: &Path) {
    let rules = std::fs::read_to_string(RULES).expect("the rules cannot be read");
    assert!(
        rules.contains(from),
        "the fault {name} has no place in the rules"
    );
    std::fs::write(path, rules.replacen(from, to, 1)).expect("the rules cannot be written");
    use_rules(harness, path);
}

/// Gives Jena a file of rules.
fn use_rules(harness: &mut Harness, path: &Path) {
    let peer = harness.peer.as_mut().expect("Jena has not been started");
    peer.use_rules(path);
}

/// The small stores of a run, by number.
fn store(harness: &mut Harness, seed: u64, number: u64) -> Result<(), (String, Failure)> {
    small(harness, case_seed(seed, PHASE, number)).map_err(|f| (format!("store {number}"), f))
}

/// How many of the planted faults end in a difference, or the name of the first that does not.
pub fn find_faults(harness: &mut Harness, seed: u64, path: &Path) -> Result<usize, &'static str> {
    for fault in FAULTS {
        plant(harness, fault, path);
        let by_stores = (0..STORES_FOR_A_FAULT).any(|i| store(harness, seed, i).is_err());
        // The program that reads files prints facts alone.
        let by_files = OF_STATEMENTS.contains(&fault.0) || kept::finds(harness, seed);
        if !(by_stores && by_files) {
            return Err(fault.0);
        }
    }
    use_rules(harness, Path::new(RULES));
    Ok(FAULTS.len())
}

/// Compares so many small stores and the large one; the place and the failure of the first
/// difference.
pub fn run(harness: &mut Harness, seed: u64, stores: u64) -> Result<(), (String, Failure)> {
    let start = Instant::now();
    let progress = |harness: &Harness| {
        let answers = harness.peer.as_ref().map_or(0, |p| p.seen.answers());
        println!("{answers} answers, {:.1} s", start.elapsed().as_secs_f64());
    };
    for i in 0..stores {
        store(harness, seed, i)?;
        if i % 100 == 99 {
            progress(harness);
        }
    }
    large(harness).map_err(|f| ("the large store".to_string(), f))?;
    progress(harness);
    Ok(())
}
