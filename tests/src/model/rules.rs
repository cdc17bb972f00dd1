//! Which facts follow: the four rules of document 01, to a fixpoint.

use super::terms::*;
use super::{Fault, Model};
use std::collections::BTreeMap;

/// The rounds after which the planted fault `LimitDepth` stops.
const LIMITED_ROUNDS: usize = 3;

/// What one statement and one fact give, if anything.
fn conclusion([x, rule, y]: Triple, [a, p, b]: Triple, type_literals: bool) -> Option<Triple> {
    match rule {
        // "Subclass: c 2 d and a 1 c give a 1 d."
        SUBCLASS if p == TYPE && b == x => Some([a, TYPE, y]),
        // "Subproperty: p 3 q and a p b give a q b."
        SUBPROPERTY if p == x => Some([a, y, b]),
        // "Domain: p 4 c and a p b give a 1 c."
        DOMAIN if p == x => Some([a, TYPE, y]),
        // "Range: p 5 c and a p b give b 1 c, unless b is a literal".
        RANGE if p == x && (type_literals || !is_literal(b)) => Some([b, TYPE, y]),
        _ => None,
    }
}

impl Model {
    /// "rules repeat until no triple is gained" (the saturation of the facts).
    fn fixpoint(&self, statements: &Graph, facts: &Graph, type_literals: bool) -> Graph {
        let mut all = facts.clone();
        let mut gained: Vec<Triple> = facts.iter().copied().collect();
        let mut rounds = 0;
        while !gained.is_empty() && !(self.has(Fault::LimitDepth) && rounds == LIMITED_ROUNDS) {
            let mut next = Vec::new();
            for fact in gained {
                for statement in statements {
                    if let Some(new) = conclusion(*statement, fact, type_literals) {
                        if all.insert(new) {
                            next.push(new);
                        }
                    }
                }
            }
            gained = next;
            rounds += 1;
        }
        all
    }

    /// The facts "with all that follow".
    pub fn saturation(&self, statements: &Graph, facts: &Graph) -> Graph {
        self.fixpoint(statements, facts, false)
    }

    /// What the rewritten way matches: "all that follow from the explicit facts and statements".
    pub fn rewritten_facts(&self, statements: &Graph, facts: &Graph) -> Graph {
        self.fixpoint(statements, facts, self.has(Fault::TypeLiterals))
    }

    /// "one fact and the statements carry a set of facts, itself included."
    pub fn carried(&self, statements: &Graph, fact: Triple) -> Graph {
        self.saturation(statements, &Graph::from([fact]))
    }

    /// By how much one fact raises the support of a row that it carries: "by 1".
    pub fn weight(&self, statements: &Graph, carried: &Graph, row: Triple) -> u32 {
        if !self.has(Fault::CountPaths) {
            return 1;
        }
        let paths = carried.iter().flat_map(|premise| {
            let last_steps = statements.iter();
            last_steps.filter(move |s| conclusion(**s, *premise, false) == Some(row))
        });
        paths.count().max(1) as u32
    }

    /// "The support of a fact is the number of explicit facts that carry it."
    pub fn supports(&self, statements: &Graph, facts: &Graph) -> BTreeMap<Triple, u32> {
        let mut supports = BTreeMap::new();
        for fact in facts {
            let carried = self.carried(statements, *fact);
            for row in &carried {
                *supports.entry(*row).or_insert(0) += self.weight(statements, &carried, *row);
            }
        }
        supports
    }
}
