//! Random names, triples, deliveries, questions and stores, small so that they meet.

use crate::model::questions::{read_question, Question};
use crate::model::tables::{self, Content};
use crate::model::terms::*;
use crate::model::Model;
use crate::random::Random;
use crate::script::{Call, Output, Way};
use crate::session::Session;
use crate::store::{Store, Table};
use std::collections::BTreeMap;

pub const BLANK: u32 = 1 << 30;
pub const LITERAL: u32 = 2 << 30;
pub const VARIABLE: u32 = 3 << 30;

/// The terms that one case uses.
pub struct Names {
    pub classes: Vec<u32>,
    pub properties: Vec<u32>,
    pub things: Vec<u32>,
    pub literals: Vec<u32>,
}

/// Some of the terms offered, at least one.
fn some(random: &mut Random, offered: &[u32]) -> Vec<u32> {
    let mut terms = offered.to_vec();
    random.shuffle(&mut terms);
    terms.truncate(random.between(1, terms.len()));
    terms
}

impl Names {
    pub fn random(random: &mut Random) -> Names {
        if random.once_in(5) {
            // One URI may be class, property and thing.
            let shared = some(random, &[16, 17, 18, 19]);
            return Names {
                classes: shared.clone(),
                properties: shared.clone(),
                things: shared,
                literals: vec![LITERAL + 1],
            };
        }
        let rare = [1, 2, 5, 16, 20, BLANK - 1, 2 * BLANK - 1];
        let mut things = some(random, &[32, 33, 34, BLANK + 1, BLANK + 3]);
        if random.once_in(3) {
            things.push(random.pick(&rare));
        }
        let mut classes = some(random, &[16, 17, 18, 19, 40, BLANK + 1, BLANK + 2]);
        let properties = some(random, &[20, 21, 22, 23, 24]);
        if random.once_in(4) {
            classes.push(random.pick(&properties));
        }
        Names {
            classes,
            properties,
            things,
            literals: some(random, &[LITERAL + 1, LITERAL + 2, 3 * BLANK - 1]),
        }
    }
}

/// Words at the edges of their kinds, terms and not.
pub const EDGES: [u32; 24] = [
    0,
    1,
    2,
    3,
    4,
    5,
    6,
    15,
    16,
    17,
    20,
    32,
    BLANK - 1,
    BLANK,
    BLANK + 1,
    LITERAL - 1,
    LITERAL,
    LITERAL + 1,
    VARIABLE - 1,
    VARIABLE,
    VARIABLE + 1,
    VARIABLE + 15,
    VARIABLE + 16,
    u32::MAX,
];

/// Any word, mostly one at an edge.
pub fn any_word(random: &mut Random) -> u32 {
    if random.once_in(8) {
        random.word()
    } else {
        random.pick(&EDGES)
    }
}

/// A statement over the names.
pub fn statement(random: &mut Random, names: &Names) -> Triple {
    let property = random.pick(&[SUBCLASS, SUBCLASS, SUBPROPERTY, SUBPROPERTY, DOMAIN, RANGE]);
    let (subjects, objects) = match property {
        SUBCLASS => (&names.classes, &names.classes),
        SUBPROPERTY => (&names.properties, &names.properties),
        _ => (&names.properties, &names.classes),
    };
    [random.pick(subjects), property, random.pick(objects)]
}

/// Subclasses or subproperties in a chain, in a loop, in a diamond, or in a chain whose terms are joined to
/// themselves too.
fn shape(random: &mut Random, names: &Names) -> Vec<Triple> {
    let properties = (SUBPROPERTY, &names.properties);
    let (step, terms) = random.pick(&[(SUBCLASS, &names.classes), properties]);
    let line = some(random, terms);
    let (first, last) = (line[0], line[line.len() - 1]);
    let chain = line.windows(2).map(|pair| [pair[0], step, pair[1]]);
    let middle = line.iter().filter(|term| ![first, last].contains(term));
    match random.below(4) {
        0 => chain.collect(),
        1 => chain.chain([[last, step, first]]).collect(),
        2 => middle
            .flat_map(|term| [[first, step, *term], [*term, step, last]])
            .collect(),
        _ => chain
            .chain(line.iter().map(|term| [*term, step, *term]))
            .collect(),
    }
}

/// A fact over the names, now and then one that names the property of a step.
pub fn fact(random: &mut Random, names: &Names) -> Triple {
    let subject = if random.once_in(10) {
        random.pick(&names.classes)
    } else {
        random.pick(&names.things)
    };
    let steps = [SUBCLASS, SUBPROPERTY];
    let (property, object) = match random.below(16) {
        0..=5 => (TYPE, random.pick(&names.classes)),
        6 | 7 => (TYPE, random.pick(&names.literals)),
        8 | 9 => (random.pick(&names.properties), random.pick(&names.literals)),
        10 | 11 => (random.pick(&names.properties), random.pick(&names.classes)),
        12 => (random.pick(&names.properties), random.pick(&steps)),
        _ => (random.pick(&names.properties), random.pick(&names.things)),
    };
    [subject, property, object]
}

/// A triple over the names, now and then spoilt.
pub fn triple(random: &mut Random, names: &Names) -> Triple {
    let mut triple = if random.once_in(2) {
        statement(random, names)
    } else {
        fact(random, names)
    };
    if random.once_in(12) {
        triple[random.below(3)] = any_word(random);
    }
    triple
}

/// A row that the words of a table seem to have, if any.
fn row_of(random: &mut Random, words: &[u32]) -> Option<Triple> {
    let rows: Vec<&[u32]> = words.get(1..)?.chunks_exact(3).collect();
    let count = rows.len().min(words[0] as usize);
    let row = rows[..count].get(random.below(count.max(1)))?;
    Some([row[0], row[1], row[2]])
}

/// A lone update, once in so many times a withdrawal, and then mostly of what is there.
pub fn update(random: &mut Random, names: &Names, store: &Store, withdrawals: usize) -> Call {
    if random.once_in(withdrawals) {
        Call::Withdraw(withdrawn(random, names, store))
    } else {
        Call::Add(triple(random, names))
    }
}

/// A triple to withdraw.
fn withdrawn(random: &mut Random, names: &Names, store: &Store) -> Triple {
    let table = match random.below(10) {
        0..=3 => &store.statements,
        4..=7 => &store.facts,
        8 => &store.kept,
        _ => return triple(random, names),
    };
    row_of(random, table).unwrap_or_else(|| triple(random, names))
}

/// The parts of a delivery before they are bytes.
#[derive(Clone, Default)]
pub struct Parts {
    pub sections: [Vec<Triple>; 4],
    pub fields: Vec<(u16, Vec<u8>)>,
}

impl Parts {
    pub fn bytes(&self) -> Vec<u8> {
        let mut bytes = Vec::new();
        for section in &self.sections {
            bytes.extend((section.len() as u16).to_le_bytes());
            for word in section.iter().flatten() {
                bytes.extend(word.to_le_bytes());
            }
        }
        bytes.extend((self.fields.len() as u16).to_le_bytes());
        for (tag, field) in &self.fields {
            bytes.extend(tag.to_le_bytes());
            bytes.extend((field.len() as u16).to_le_bytes());
            bytes.extend(field);
        }
        bytes
    }
}

/// An entry of a section; its property is right for the section unless 10 is wanted.
fn entry(random: &mut Random, names: &Names, store: &Store, section: usize) -> Triple {
    let mut entry = match section {
        0 => row_of(random, &store.statements).unwrap_or_else(|| statement(random, names)),
        1 => row_of(random, &store.facts).unwrap_or_else(|| fact(random, names)),
        2 => statement(random, names),
        _ => fact(random, names),
    };
    if random.once_in(10) {
        entry[2 * random.below(2)] = any_word(random);
    }
    if section % 2 == 1 && random.once_in(40) {
        entry[1] = random.pick(&[0, BLANK + 1, LITERAL, VARIABLE, 6, u32::MAX]);
    }
    entry
}

/// Extra fields: other tags, and sometimes a delivery number.
fn fields(random: &mut Random) -> Vec<(u16, Vec<u8>)> {
    let mut fields = Vec::new();
    for _ in 0..random.below(4) {
        let tag = random.pick(&[0, 2, 3, 256, 257, u16::MAX]);
        let bytes = (0..random.below(7)).map(|_| random.next() as u8).collect();
        fields.push((tag, bytes));
    }
    if random.once_in(2) {
        let number = random.pick(&[0, 1, 7, 0x0102_0304, u32::MAX]);
        fields.push((1, number.to_le_bytes().to_vec()));
        random.shuffle(&mut fields);
    }
    fields
}

/// A delivery, mostly a whole one.
pub fn delivery(random: &mut Random, names: &Names, store: &Store) -> Vec<u8> {
    let mut parts = Parts::default();
    for section in 0..4 {
        for _ in 0..random.below(4) {
            parts.sections[section].push(entry(random, names, store, section));
        }
    }
    if random.once_in(2) {
        parts.sections[2].extend(shape(random, names));
    }
    parts.fields = fields(random);
    match random.below(12) {
        0 => spoil_sections(random, &mut parts),
        1 => spoil_number(random, &mut parts),
        2 => {
            spoil_sections(random, &mut parts);
            spoil_number(random, &mut parts);
        }
        _ => {}
    }
    let mut bytes = parts.bytes();
    if random.once_in(5) {
        spoil_bytes(random, &mut bytes);
    }
    bytes
}

/// Gives an entry a property that is wrong for its section.
fn spoil_sections(random: &mut Random, parts: &mut Parts) {
    let section = random.below(4);
    let wrong = if section % 2 == 0 {
        random.pick(&[0, 1, 6, 20, BLANK + 2, LITERAL + 3])
    } else {
        random.pick(&[2, 3, 4, 5])
    };
    if let Some(entry) = parts.sections[section].last_mut() {
        entry[1] = wrong;
    }
}

/// Gives tag 1 twice, or with another length.
fn spoil_number(random: &mut Random, parts: &mut Parts) {
    let length = random.pick(&[0, 3, 4, 4, 5, 8]);
    parts.fields.push((1, vec![9; length]));
    if random.once_in(2) {
        parts.fields.push((1, vec![8; 4]));
    }
    random.shuffle(&mut parts.fields);
}

/// Cuts, extends or changes bytes.
fn spoil_bytes(random: &mut Random, bytes: &mut Vec<u8>) {
    match random.below(4) {
        0 => bytes.truncate(random.below(bytes.len() + 1)),
        1 => {
            let extra = random.between(1, 5);
            bytes.extend((0..extra).map(|_| random.pick(&[0, 1, 255])));
        }
        2 => {
            let at = random.below(bytes.len());
            bytes[at] ^= 1 << random.below(8);
        }
        _ => {
            let at = random.below(bytes.len());
            bytes[at] = random.pick(&[0, 1, 2, 4, 12, 255]);
        }
    }
}

/// An atom over names and variables.
fn atom(random: &mut Random, names: &Names, variables: &[u32]) -> Triple {
    let subject = match random.below(6) {
        0 => random.pick(&names.things),
        1 => random.pick(&names.classes),
        _ => random.pick(variables),
    };
    let property = match random.below(8) {
        0 | 1 => random.pick(variables),
        2 | 3 => TYPE,
        4 => random.pick(&[SUBCLASS, SUBPROPERTY, DOMAIN, RANGE]),
        _ => random.pick(&names.properties),
    };
    let object = match random.below(8) {
        0 => random.pick(&names.things),
        1 => random.pick(&names.literals),
        2 | 3 => random.pick(&names.classes),
        _ => random.pick(variables),
    };
    // "no blank named": a variable stands in for a blank.
    let named = |word| if is_blank(word) { variables[0] } else { word };
    [named(subject), property, named(object)]
}

/// An atom for the alternatives call, sometimes none.
pub fn alternatives_atom(random: &mut Random, names: &Names) -> Triple {
    let variables = [VARIABLE, VARIABLE + 1, VARIABLE + 15];
    let mut atom = atom(random, names, &variables);
    if random.once_in(4) {
        atom[1] = random.pick(&names.properties);
    }
    if random.once_in(10) {
        atom[random.below(3)] = any_word(random);
    }
    atom
}

/// Atoms made from triples, so that there are answers: each term becomes a constant or a variable
/// of its own, the same in all atoms.
fn atoms_of(random: &mut Random, triples: &[Triple], variables: &[u32], n: usize) -> Vec<Triple> {
    let mut named: BTreeMap<u32, u32> = BTreeMap::new();
    let mut atoms = Vec::new();
    for _ in 0..n {
        let mut triple = random.pick(triples);
        for _ in 0..6 {
            if atoms.is_empty() || triple.iter().any(|term| named.contains_key(term)) {
                break;
            }
            triple = random.pick(triples);
        }
        atoms.push(triple.map(|term| {
            if let Some(variable) = named.get(&term) {
                return *variable;
            }
            if random.below(5) < 2 && !is_blank(term) {
                return term;
            }
            let variable = variables[named.len() % variables.len()];
            named.insert(term, variable);
            variable
        }));
    }
    atoms
}

/// Atoms made from triples, so that there are answers: each but the first asks for the subjects of
/// an object that is known by the atoms before, or for the classes or all properties of a subject.
fn joined_atoms(random: &mut Random, triples: &[Triple], n: usize) -> Vec<Triple> {
    let [subject, property, object] = random.pick(triples);
    let mut atoms = vec![[VARIABLE, property, VARIABLE + 1]];
    // What the variables stand for.
    let mut terms = vec![subject, object];
    while atoms.len() < n {
        let place = random.pick(&[0, 2]);
        let at = random.below(terms.len());
        let [known, new] = [at, terms.len()].map(|number| VARIABLE + number as u32);
        let sharing = triples.iter().filter(|t| t[place] == terms[at]);
        let sharing: Vec<Triple> = sharing.copied().collect();
        if sharing.is_empty() {
            continue;
        }
        let [subject, property, object] = random.pick(&sharing);
        if place == 2 {
            atoms.push([new, property, known]);
            terms.push(subject);
        } else if property == TYPE && random.once_in(2) {
            atoms.push([known, TYPE, new]);
            terms.push(object);
        } else {
            atoms.push([known, new, new + 1]);
            terms.extend([property, object]);
        }
    }
    random.shuffle(&mut atoms);
    atoms
}

/// The triples by which steps are asked for: subclasses and subproperties, and as many facts that name one of
/// the two properties, if there is any.
fn about_steps(triples: &[Triple]) -> Vec<Triple> {
    let is_step = |word: &u32| [SUBCLASS, SUBPROPERTY].contains(word);
    let steps: Vec<Triple> = triples.iter().copied().filter(|t| is_step(&t[1])).collect();
    let naming = triples.iter().filter(|t| is_step(&t[0]) || is_step(&t[2]));
    let naming = naming.cycle().take(steps.len()).copied();
    naming.chain(steps.iter().copied()).collect()
}

/// The words of a question, sometimes malformed.
fn question_words(random: &mut Random, names: &Names, triples: &[Triple]) -> Vec<u32> {
    let numbers = [0, 1, 2, 3, 9, 15, 7, 8];
    let used = random.between(1, numbers.len());
    let variables: Vec<u32> = numbers[..used].iter().map(|n| VARIABLE + n).collect();
    let n = random.pick(&[1, 1, 2, 2, 2, 3, 3, 4, 5, 6]);
    let steps = about_steps(triples);
    let atoms = match random.below(11) {
        2..=4 if !triples.is_empty() => joined_atoms(random, triples, n),
        5..=7 if !triples.is_empty() => atoms_of(random, triples, &variables, n),
        8.. if !steps.is_empty() => atoms_of(random, &steps, &variables, n),
        _ => (0..n).map(|_| atom(random, names, &variables)).collect(),
    };
    let mut words = vec![n as u32, 0];
    words.extend(atoms.iter().flatten());
    let found: Vec<u32> = words[2..]
        .iter()
        .copied()
        .filter(|w| is_variable(*w))
        .collect();
    let heads = random.pick(&[1, 1, 2, 2, 3, 4, 8]);
    for _ in 0..heads {
        let head = if found.is_empty() || random.once_in(30) {
            random.pick(&variables)
        } else {
            random.pick(&found)
        };
        words.push(head);
    }
    words[1] = heads as u32;
    if random.once_in(8) {
        spoil_question(random, &mut words);
    }
    words
}

/// Changes, cuts or extends the words of a question.
fn spoil_question(random: &mut Random, words: &mut Vec<u32>) {
    match random.below(6) {
        0 => words.truncate(random.below(words.len() + 1)),
        1 => words.push(any_word(random)),
        2 => words[0] = random.pick(&[0, 1, 6, 7, u32::MAX, u32::MAX / 3, 1 << 30]),
        3 => words[1] = random.pick(&[0, 1, 8, 9, u32::MAX, 1 << 31]),
        4 => {
            let last = words.len() - 1;
            words[last] = any_word(random);
        }
        _ => {
            let at = random.between(2, words.len() - 1);
            words[at] = any_word(random);
        }
    }
}

/// How many ways there are to choose a match for each atom by itself: what any order of matching
/// stays below.
fn choices(triples: &Graph, question: &Question) -> u64 {
    let matches = |atom: &Triple| {
        let agrees = |t: &Triple| (0..3).all(|i| is_variable(atom[i]) || atom[i] == t[i]);
        triples.iter().filter(|t| agrees(t)).count() as u64
    };
    let counts = question.atoms.iter().map(|a| matches(a).max(1));
    counts.fold(1, u64::saturating_mul)
}

/// The most choices that a question of these runs may have.
const CHOICES: u64 = 20_000;

/// A question whose answers neither side has to search for long.
pub fn question(random: &mut Random, names: &Names, model: &Model, store: &Store) -> Vec<u32> {
    let [kept, rewritten] = Way::BOTH.map(|way| model.matched_triples(store, way));
    let short = |words: &[u32]| match read_question(words) {
        Err(_) => true,
        Ok(question) => [&kept, &rewritten]
            .into_iter()
            .flatten()
            .all(|triples| choices(triples, &question) <= CHOICES),
    };
    let seen: Graph = [&kept, &rewritten]
        .into_iter()
        .flatten()
        .flatten()
        .copied()
        .collect();
    let seen: Vec<Triple> = seen.into_iter().collect();
    loop {
        let words = question_words(random, names, &seen);
        if short(&words) {
            return words;
        }
    }
}

/// An output for so many rows: none, too few, just enough, or more.
pub fn output(random: &mut Random, rows: usize, width: usize) -> Output {
    let exact = rows * width;
    let words = match random.below(8) {
        0 => 0,
        1 => exact.saturating_sub(width),
        2 => exact.saturating_sub(1),
        3 => exact + width - 1,
        4 | 5 => exact,
        6 => exact + random.below(20),
        _ => random.below(40),
    };
    Output {
        words,
        fill: random.below(1000) as u32,
    }
}

/// Asks, lists, or shows alternatives, at random, on the store as it is.
pub fn look(
    random: &mut Random,
    names: &Names,
    session: &mut Session,
) -> Result<(), crate::session::Failure> {
    let model = session.harness.model;
    match random.below(4) {
        0 => {
            let table = random.pick(&Table::ALL);
            let order = random.pick(&[0, 1, 2, 3, 4, 5, 0, 1, 2, 3, 4, 5, 6, 7, u32::MAX]);
            let rows = model.list(table, session.store.table(table), order);
            let output = output(random, rows.map_or(2, |r| r.len()), 3);
            session.call(Call::List(table, order, output))
        }
        1 => {
            let atom = alternatives_atom(random, names);
            let rows = model.alternatives(&session.store.statements, atom);
            let output = output(random, rows.map_or(2, |r| r.len()), 3);
            session.call(Call::Alternatives(atom, output))
        }
        _ => {
            let words = question(random, names, &model, &session.store);
            let width = words.get(1).map_or(1, |m| (*m).clamp(1, 8) as usize);
            for way in Way::BOTH {
                let rows = model.ask(&session.store, way, &words);
                let output = output(random, rows.map_or(2, |r| r.len()), width);
                session.call(Call::Ask(way, words.clone(), output))?;
            }
            Ok(())
        }
    }
}

/// A well-formed store that nobody grew: kept facts need not be what follows, nor supports true.
pub fn lent_store(random: &mut Random, names: &Names, model: &Model) -> Store {
    let limit = random.pick(&[0, 1, 3, 8, 12]);
    let mut statements: Graph = (0..limit).map(|_| statement(random, names)).collect();
    if random.once_in(2) {
        statements.extend(shape(random, names));
    }
    let limit = random.pick(&[0, 1, 4, 10]);
    let facts: Graph = (0..limit).map(|_| fact(random, names)).collect();
    let mut kept = model.supports(&statements, &facts);
    if random.once_in(2) {
        kept.retain(|_, _| !random.once_in(3));
    }
    if !facts.is_empty() && random.once_in(2) {
        let other: Graph = (0..4).map(|_| fact(random, names)).collect();
        for row in other {
            kept.insert(row, 1);
        }
    }
    if random.once_in(2) {
        for support in kept.values_mut() {
            *support = random.between(1, facts.len()) as u32;
        }
    }
    let mut store = Store::empty([
        Store::words(statements.len()) + spare(random),
        Store::words(facts.len()) + spare(random),
        Store::words(kept.len()) + spare(random),
        kept.len() + spare(random),
    ]);
    let content = Content {
        statements,
        facts,
        kept,
    };
    tables::write(&content, &mut store);
    store
}

/// Some spare words.
fn spare(random: &mut Random) -> usize {
    random.pick(&[0, 1, 2, 3, 4, 9, 30])
}

/// Damages one of the four tables.
pub fn damage(random: &mut Random, store: &mut Store) {
    match random.below(4) {
        0 => damage_supports(random, &mut store.supports),
        n => damage_rows(random, store.table_mut(Table::ALL[n - 1])),
    }
}

/// Damages a table of rows: bits, counts, lengths, order, and words after the last row.
pub fn damage_rows(random: &mut Random, words: &mut Vec<u32>) {
    if words.is_empty() {
        return;
    }
    let length = words.len();
    let rows = (length - 1) / 3;
    match random.below(9) {
        0 => words[random.below(length)] ^= 1 << random.below(32),
        1 => {
            words[0] = random.pick(&[
                0,
                1,
                words[0].wrapping_sub(1),
                words[0].wrapping_add(1),
                u32::MAX,
            ])
        }
        2 => words.truncate(random.below(length)),
        3 => words.clear(),
        4 => words.extend(std::iter::repeat_n(0, random.between(1, 5))),
        5 => words[length - 1] = any_word(random),
        6 => words[random.below(length)] = any_word(random),
        7 if rows >= 2 => {
            let (a, b) = (random.below(rows), random.below(rows));
            for i in 1..4 {
                words.swap(3 * a + i, 3 * b + i);
            }
        }
        _ if rows >= 2 => {
            let (a, b) = (random.below(rows), random.below(rows));
            words.copy_within(3 * a + 1..3 * a + 4, 3 * b + 1);
        }
        _ => words.push(1),
    }
}

/// Damages supports: values out of range, and lengths.
fn damage_supports(random: &mut Random, places: &mut Vec<u16>) {
    if places.is_empty() {
        return;
    }
    let length = places.len();
    let at = random.below(length);
    match random.below(6) {
        0 => places.truncate(at),
        1 => places.clear(),
        2 => places[at] = 0,
        3 => places[at] = places[at].wrapping_add(1),
        4 => places[at] = random.pick(&[1, 2, 256, u16::MAX]),
        _ => places[length - 1] = 1,
    }
}
