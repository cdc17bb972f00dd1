//! Our library by itself where one thing has half of the facts, where one object is that of half of the facts, where one thing or one object
//! has very many properties, and where all facts share classes, objects and properties two by two.

use crate::alone::{asked, by_size, Asked};
use crate::contest::Outcome;
use crate::scale::Scale;
use families::Triple;
use workload::{question, variable, GROWING, THING};

/// The thing with half of the facts, or the object of half of them.
const HUB: u32 = 9;

/// A property of these facts, one that it is below, a domain of the first and a range of the second.
const PROPERTY: u32 = 20;
const GENERAL: u32 = 21;
const DOMAIN: u32 = 30;
const RANGE: u32 = 31;

/// What is stated of them; the range is below a class.
const STATEMENTS: [Triple; 4] = [[PROPERTY, 3, GENERAL], [PROPERTY, 4, DOMAIN], [GENERAL, 5, RANGE], [RANGE, 2, RANGE + 1]];

/// A store of so many facts, of which half are made of their number.
fn store(n: usize, fact: impl Fn(u32) -> Triple, questions: Vec<(&'static str, Vec<u32>)>) -> Asked {
    let mut facts = workload::facts(n - n / 2, 200, GROWING, 7);
    facts.extend((0..n as u32 / 2).map(fact));
    asked(&STATEMENTS, &facts, questions)
}

/// Questions about a thing with half of the facts.
fn one_thing(n: usize) -> Asked {
    let [x, y, z] = [0, 1, 2].map(variable);
    let questions = vec![
        ("x has a property y, and x is related to y by z", question(&[[x, PROPERTY, y], [x, z, y]], &[x, y, z])),
        ("x has a property y, and x is of class z", question(&[[x, PROPERTY, y], [x, 1, z]], &[x, z])),
    ];
    store(n, |i| [HUB, PROPERTY, THING + i], questions)
}

/// Questions about an object of half of the facts.
fn one_object(n: usize) -> Asked {
    let [x, y, z, u] = [0, 1, 2, 3].map(variable);
    let questions = vec![
        ("x has a property y, and y is of class z", question(&[[x, PROPERTY, y], [y, 1, z]], &[x, z])),
        ("x has a property y, and y is related to z by u", question(&[[x, PROPERTY, y], [y, u, z]], &[x, z, u])),
    ];
    store(n, |i| [THING + i, PROPERTY, HUB], questions)
}

/// The first of the properties of a thing that has many.
const OWN: u32 = 6_000_000;

/// A question about a thing with a property for each eight facts, whose objects it has by one property more.
fn many_properties(n: usize) -> Asked {
    let [x, y, z] = [0, 1, 2].map(variable);
    let questions = vec![("x has a property y, and x is related to y by z", question(&[[x, SHARING, y], [x, z, y]], &[x, y, z]))];
    let m = n as u32 / 8;
    let mut facts = workload::facts(n - 2 * m as usize, 200, GROWING, 7);
    facts.extend((0..m).flat_map(|i| [[HUB, SHARING, THING + i], [HUB, OWN + i, THING + i]]));
    asked(&STATEMENTS, &facts, questions)
}

/// A question about an object with a property for each eight facts, where the properties have the object too.
fn many_properties_of_object(n: usize) -> Asked {
    let [x, y, z] = [0, 1, 2].map(variable);
    let questions = vec![("x shares y, and z is related to y by x", question(&[[x, SHARING, y], [z, x, y]], &[x, z]))];
    let m = n as u32 / 8;
    let mut facts = workload::facts(n - 2 * m as usize, 200, GROWING, 7);
    facts.extend((0..m).flat_map(|i| [[OWN + i, SHARING, HUB], [THING + i, OWN + i, HUB]]));
    asked(&STATEMENTS, &facts, questions)
}

/// A property of facts whose objects two things share, and one of facts whose objects are properties of two facts.
const SHARING: u32 = 40;
const NAMING: u32 = 41;

/// The first of the classes, objects and properties that are shared.
const SHARED: u32 = 5_000_000;

/// Questions that join facts by a class, by an object of any property, and by a property, each of two facts.
fn in_pairs(n: usize) -> Asked {
    let [x, y, z, u, v] = [0, 1, 2, 3, 4].map(variable);
    let questions = vec![
        ("x and z are of class y", question(&[[x, 1, y], [z, 1, y]], &[x, z])),
        ("x and z are related to y", question(&[[x, u, y], [z, v, y]], &[x, z])),
        ("x names y, and z is related to u by y", question(&[[x, NAMING, y], [z, y, u]], &[x, z, u])),
    ];
    let m = n as u32 / 4;
    let of = |k: u32, i: u32| SHARED + k * m + i / 2;
    let made = |i: u32| [[THING + i, 1, of(0, i)], [THING + i, SHARING, of(1, i)], [THING + i, NAMING, of(2, i)], [THING + i, of(2, i), THING + i]];
    asked(&STATEMENTS, &(0..m).flat_map(made).collect::<Vec<Triple>>(), questions)
}

/// All five, on stores of several sizes.
pub fn hubs(scale: &Scale) -> Outcome<String> {
    let mut out = String::new();
    let of_object = "One object is that of half of the facts";
    let in_twos = "Two facts share each class, each object and each property";
    let of_properties = "One thing has a property for each eight facts";
    let to_properties = "One object has a property for each eight facts";
    let stores = [
        ("One thing has half of the facts", one_thing as fn(usize) -> Asked),
        (of_object, one_object),
        (of_properties, many_properties),
        (to_properties, many_properties_of_object),
        (in_twos, in_pairs),
    ];
    for (title, of) in stores {
        out += &format!("{title}.\n\n{}", by_size(scale, scale.sizes.iter().map(|&n| of(n)).collect())?);
    }
    Ok(out)
}
