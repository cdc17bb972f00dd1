//! The statements that a question matches: the explicit ones, closed by W3C's rules rdfs5 and rdfs11.

use super::terms::*;
use super::{Fault, Model};
use crate::script::Way;

/// A property whose statements are joined.
fn is_step(property: u32) -> bool {
    property == SUBCLASS || property == SUBPROPERTY
}

/// The atoms that can match more than explicit statements: "atoms with property 2, 3 or a variable".
pub fn matches_closed([_, property, _]: &Triple) -> bool {
    is_step(*property) || is_variable(*property)
}

impl Model {
    /// What two statements give, if anything. rdfs5: "xxx rdfs:subPropertyOf yyy" and "yyy
    /// rdfs:subPropertyOf zzz" give "xxx rdfs:subPropertyOf zzz"; rdfs11: the same of
    /// rdfs:subClassOf. "Domain and range still match as explicit".
    fn joined(&self, [x, first, y]: Triple, [from, second, z]: Triple) -> Option<Triple> {
        let gives = match (first, second) {
            (SUBCLASS, SUBCLASS) | (SUBPROPERTY, SUBPROPERTY) => true,
            (SUBCLASS, SUBPROPERTY) | (SUBPROPERTY, SUBCLASS) => self.has(Fault::StepsMixed),
            (DOMAIN | RANGE, SUBCLASS) => self.has(Fault::ClassInherited),
            _ => false,
        };
        (gives && y == from).then_some([x, first, z])
    }

    /// "a pair that one or more explicit steps join": each statement is joined with each that starts
    /// where it ends, until none is gained.
    fn closure(&self, statements: &Graph) -> Graph {
        let mut all = statements.clone();
        loop {
            let starting = |term| all.range([term, 0, 0]..=[term, u32::MAX, u32::MAX]);
            let joined = |first: &Triple| {
                let first = *first;
                starting(first[2]).filter_map(move |second| self.joined(first, *second))
            };
            let gained: Vec<Triple> = all.iter().flat_map(joined).collect();
            let before = all.len();
            all.extend(gained);
            if all.len() == before {
                return all;
            }
        }
    }

    /// The statements that a way of asking matches: "also .. a pair that one or more explicit steps
    /// join, by both ways of asking; a loop therefore joins a class to itself."
    pub fn matched_statements(&self, way: Way, statements: &Graph) -> Graph {
        if self.has(Fault::ClosedKept) && way == Way::Rewritten {
            return statements.clone();
        }
        let mut all = self.closure(statements);
        if self.has(Fault::LoopsLost) {
            all.retain(|t| t[0] != t[2] || statements.contains(t));
        }
        if self.has(Fault::ReflexivePairs) {
            let steps = statements.iter().filter(|t| is_step(t[1]));
            all.extend(steps.flat_map(|[x, step, y]| [[*x, *step, *x], [*y, *step, *y]]));
        }
        all
    }
}
