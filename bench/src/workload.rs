//! A made-up product graph: a forest of classes, chains of properties with domains and ranges, and facts about things.

use families::Triple;
use std::collections::HashMap;

/// A small generator of pseudo-random numbers (xorshift), so that every run has the same workload.
pub struct Random(u64);

impl Random {
    pub fn new(seed: u64) -> Random {
        Random(seed | 1)
    }

    pub fn below(&mut self, n: u32) -> u32 {
        self.0 ^= self.0 << 13;
        self.0 ^= self.0 >> 7;
        self.0 ^= self.0 << 17;
        ((self.0 >> 16) % n as u64) as u32
    }
}

pub const CLASS: u32 = 1_000;
pub const PROPERTY: u32 = 2_000;
pub const THING: u32 = 10_000;

/// So many statements: half of them subclasses in a forest, the others subproperties, domains and ranges.
pub fn statements(n: usize) -> Vec<Triple> {
    let n = n as u32;
    let classes = n / 2;
    let properties = n / 4;
    let mut out = Vec::new();
    for c in 1..=classes {
        out.push([CLASS + c, 2, CLASS + c / 3]);
    }
    for p in 1..=properties {
        out.push([PROPERTY + p, 3, PROPERTY + p / 4]);
    }
    for p in 0..(n - classes - properties) {
        let property = PROPERTY + p / 2;
        let class = CLASS + (p * 7) % (classes + 1);
        out.push([property, if p % 2 == 0 { 4 } else { 5 }, class]);
    }
    out.truncate(n as usize);
    out
}

/// Of ten facts, how many give a type, how many have a literal, and how many have a property that the statements speak of; the
/// others have properties that they do not.
#[derive(Clone, Copy)]
pub struct Mix {
    pub types: u32,
    pub literals: u32,
    pub stated: u32,
}

/// Some four kept rows for each fact: as many as a store of 65,000 facts has room for.
pub const GROWING: Mix = Mix { types: 2, literals: 1, stated: 1 };

/// Some five kept rows for each fact.
pub const DENSE: Mix = Mix { types: 2, literals: 1, stated: 3 };

/// So many distinct facts about things: types, properties between things, and literals.
pub fn facts(n: usize, statements: usize, mix: Mix, seed: u64) -> Vec<Triple> {
    let mut random = Random::new(seed);
    let classes = statements as u32 / 2 + 1;
    let properties = statements as u32 / 4 + 1;
    let things = (n as u32 / 4).max(1);
    let mut set = std::collections::BTreeSet::new();
    while set.len() < n {
        let thing = THING + random.below(things);
        let fact = match random.below(10) {
            x if x < mix.types => [thing, 1, CLASS + random.below(classes)],
            x if x < mix.types + mix.literals => [thing, PROPERTY + random.below(properties), 0x8000_0001 + random.below(things)],
            x if x < mix.types + mix.literals + mix.stated => [thing, PROPERTY + random.below(properties), THING + random.below(things)],
            _ => [thing, PROPERTY + 1_000 + random.below(40), THING + random.below(things)],
        };
        set.insert(fact);
    }
    set.into_iter().collect()
}

/// The same facts in another order.
pub fn shuffled(mut facts: Vec<Triple>, seed: u64) -> Vec<Triple> {
    let mut random = Random::new(seed);
    for i in (1..facts.len()).rev() {
        facts.swap(i, random.below(i as u32 + 1) as usize);
    }
    facts
}

/// So many of some triples, spread over them.
pub fn spread(triples: &[Triple], n: usize) -> Vec<Triple> {
    (0..n).map(|i| triples[i * triples.len() / n]).collect()
}

/// A delivery that withdraws and adds these: statements withdrawn, facts withdrawn, statements added, facts added.
pub fn delivery(sections: [&[Triple]; 4]) -> Vec<u8> {
    let mut bytes = Vec::new();
    for entries in sections {
        bytes.extend((entries.len() as u16).to_le_bytes());
        bytes.extend(entries.iter().flatten().flat_map(|w| w.to_le_bytes()));
    }
    bytes.extend([0, 0]);
    bytes
}

/// A variable of a question.
pub const fn variable(n: u32) -> u32 {
    0xC000_0000 + n
}

/// The words of a question.
pub fn question(atoms: &[Triple], head: &[u32]) -> Vec<u32> {
    let mut words = vec![atoms.len() as u32, head.len() as u32];
    words.extend(atoms.iter().flatten());
    words.extend(head);
    words
}

/// The least thing that is the object of a fact of a property, if there is one.
fn object_of(facts: &[Triple], property: u32) -> Option<u32> {
    facts.iter().filter(|fact| fact[1] == property && fact[2] < 0x8000_0000).map(|fact| fact[2]).min()
}

/// The end of a chain of three facts with these properties, from the last to the first.
fn end_of_chain(facts: &[Triple], properties: [u32; 3]) -> Option<u32> {
    let objects: HashMap<(u32, u32), u32> = facts.iter().map(|&[s, p, o]| ((s, p), o)).collect();
    let [first, second, third] = properties;
    let starts = facts.iter().filter(|fact| fact[1] == third);
    starts.filter_map(|fact| objects.get(&(fact[2], second))).find_map(|&z| objects.get(&(z, first)).copied())
}

/// Questions of one to four atoms about a store of these facts, by name; the first ones ask for a class with few things below it,
/// and for one with many.
pub fn questions(facts: &[Triple]) -> Vec<(&'static str, Vec<u32>)> {
    let [x, y, z, u, v] = [0, 1, 2, 3, 4].map(variable);
    let thing = object_of(facts, PROPERTY + 1).unwrap_or(THING);
    let end = end_of_chain(facts, [PROPERTY + 1, PROPERTY + 2, PROPERTY + 1]).unwrap_or(THING);
    vec![
        ("x is of a class with few things", question(&[[x, 1, CLASS + 26]], &[x])),
        ("x is of a class with many things", question(&[[x, 1, CLASS]], &[x])),
        ("x has a property y", question(&[[x, PROPERTY, y]], &[x, y])),
        ("a thing is of class y", question(&[[THING + 17, 1, y]], &[y])),
        ("x is of a class, and has a property y", question(&[[x, 1, CLASS + 1], [x, PROPERTY + 1, y]], &[x, y])),
        ("x has a property y, and y is of a class", question(&[[x, PROPERTY + 1, y], [y, 1, CLASS + 1]], &[x, y])),
        ("x is of class y, a subclass of a class", question(&[[y, 2, CLASS], [x, 1, y]], &[x, y])),
        ("x has y, y has z, and x is of a class", question(&[[x, PROPERTY + 2, y], [y, PROPERTY + 1, z], [x, 1, CLASS + 2]], &[x, z])),
        ("two things share an object", question(&[[x, PROPERTY + 1, z], [y, PROPERTY + 2, z]], &[x, y])),
        ("x has a property of a thing", question(&[[x, PROPERTY + 1, thing]], &[x])),
        ("all properties of the members of a class", question(&[[x, 1, CLASS + 26], [x, y, z]], &[x, y, z])),
        ("y is of class z, where x has y", question(&[[x, PROPERTY + 3, y], [y, 1, z]], &[y, z])),
        ("a zigzag over two shared objects", question(&[[x, PROPERTY + 1, u], [y, PROPERTY + 1, u], [y, PROPERTY + 2, v], [z, PROPERTY + 2, v]], &[x, z])),
        ("x has y, and z is related to y", question(&[[x, PROPERTY + 3, y], [z, u, y]], &[x, z])),
        ("x is of a class of a thing", question(&[[THING + 17, 1, y], [x, 1, y]], &[x])),
        ("a chain from a known end", question(&[[z, PROPERTY + 1, end], [y, PROPERTY + 2, z], [x, PROPERTY + 1, y]], &[x])),
        ("x has a property y, and z is a subclass of y", question(&[[x, PROPERTY + 1, y], [z, 2, y]], &[x, z])),
    ]
}
