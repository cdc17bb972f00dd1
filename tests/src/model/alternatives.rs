//! The alternatives of an atom (its reformulation under the schema).

use super::questions::is_atom;
use super::tables;
use super::terms::*;
use super::Model;
use std::collections::{BTreeMap, BTreeSet};

/// The objects that statements of one property give each subject.
type Steps = BTreeMap<u32, Vec<u32>>;

/// The steps of one property.
fn steps(statements: &Graph, property: u32) -> Steps {
    let mut steps = Steps::new();
    for [subject, step, object] in statements {
        if *step == property {
            steps.entry(*subject).or_default().push(*object);
        }
    }
    steps
}

/// The terms that zero or more steps lead to.
fn reached(steps: &Steps, from: u32) -> BTreeSet<u32> {
    let mut all = BTreeSet::from([from]);
    let mut gained = vec![from];
    while let Some(term) = gained.pop() {
        for next in steps.get(&term).into_iter().flatten() {
            if all.insert(*next) {
                gained.push(*next);
            }
        }
    }
    all
}

/// All alternatives that the statements give: kind, source, target.
fn all_alternatives(statements: &Graph) -> Graph {
    // "0 0 0: an explicit triple as it is."
    let mut all = Graph::from([[0, 0, 0]]);
    let subclass = steps(statements, SUBCLASS);
    let subproperty = steps(statements, SUBPROPERTY);
    let domain = steps(statements, DOMAIN);
    let range = steps(statements, RANGE);
    let sources: BTreeSet<u32> = statements.iter().map(|s| s[0]).collect();
    for source in sources {
        // "Kind 1: .. one or more subclass steps lead from source to target and the two differ."
        for target in reached(&subclass, source) {
            if target != source {
                all.insert([1, source, target]);
            }
        }
        for property in reached(&subproperty, source) {
            // "Kind 4: .. by one or more subproperty steps, source and target different."
            if property != source {
                all.insert([4, source, property]);
            }
            // "Kind 2: .. zero or more subproperty steps, one domain, then zero or more subclass
            // steps lead there. Kind 3: the same with range".
            for (kind, rule) in [(2, &domain), (3, &range)] {
                for class in rule.get(&property).into_iter().flatten() {
                    let targets = reached(&subclass, *class).into_iter();
                    all.extend(targets.map(|target| [kind, source, target]));
                }
            }
        }
    }
    all
}

/// "Kinds 1 to 3 need a property of 1 or a variable, and an object equal to target or variable;
/// kind 4 a property equal to target or variable."
fn qualifies([_, property, object]: Triple, [kind, _, target]: Triple) -> bool {
    let is = |word: u32, wanted: u32| word == wanted || is_variable(word);
    match kind {
        0 => true,
        4 => is(property, target),
        _ => is(property, TYPE) && is(object, target),
    }
}

impl Model {
    /// "All that qualify are given, once, ascending", unless 1 or 6 refuses.
    pub fn alternatives(&self, statements: &[u32], atom: Triple) -> Result<Graph, u32> {
        let statements = tables::read_statements(statements).ok_or(1u32)?;
        if !is_atom(atom) {
            return Err(6);
        }
        let all = all_alternatives(&statements).into_iter();
        Ok(all.filter(|a| qualifies(atom, *a)).collect())
    }
}
