//! Questions taken apart for the programs beside ours: atoms, and what the rewritten way puts in their place.

use crate::contest::Outcome;
use families::{Capacities, Store, Triple, Updated};

/// The most alternatives of an atom that are asked for.
const ROOM: usize = 3 * 100_000;

/// An atom, no variable of which stands in it twice, and by kind the alternatives that our library gives for it (1 subclass, 2 domain,
/// 3 range, 4 subproperty), as source and target, ascending. A statement's atom has none. A variable property is rdf:type by the kinds 1
/// to 3, and the target by kind 4.
pub struct Atom {
    pub words: Triple,
    pub alternatives: [Vec<[u32; 2]>; 4],
}

/// A question's atoms, with their alternatives, and its head variables.
pub struct Question {
    pub atoms: Vec<Atom>,
    pub head: Vec<u32>,
}

/// The number of a variable.
pub fn variable(word: u32) -> Option<u32> {
    (word >= 0xC000_0000).then_some(word - 0xC000_0000)
}

impl Atom {
    /// Whether the atom can match statements, and whether it can match facts; a variable property can be of both.
    pub fn matches(&self) -> [bool; 2] {
        let property = self.words[1];
        let of_statements = (2..=5).contains(&property);
        [of_statements || variable(property).is_some(), !of_statements]
    }

    /// The variables of the atom.
    pub fn variables(&self) -> Vec<u32> {
        self.words.iter().filter(|&&word| variable(word).is_some()).copied().collect()
    }
}

/// What rewrites questions: our library with the statements loaded, and nothing else.
pub struct Rewriter(Store);

impl Rewriter {
    /// One for no statements.
    pub fn new() -> Rewriter {
        Rewriter(Store::empty(Capacities { facts: 0, kept: 0, ..Capacities::MOST }))
    }

    /// Takes the place of the statements before.
    pub fn load(&mut self, statements: &[Triple]) -> Outcome<()> {
        *self = Rewriter::new();
        let refused = statements.iter().find(|&&t| self.0.add(t) != Ok(Updated::Applied));
        refused.map_or(Ok(()), |t| Err(format!("the statement {t:?} was refused")))
    }

    /// Takes a question apart.
    pub fn question(&self, words: &[u32]) -> Outcome<Question> {
        let end = 2 + 3 * words[0] as usize;
        let atoms = words[2..end].chunks(3).map(|words| self.atom([words[0], words[1], words[2]])).collect::<Outcome<_>>()?;
        Ok(Question { atoms, head: words[end..].to_vec() })
    }

    /// An atom with its alternatives.
    fn atom(&self, words: Triple) -> Outcome<Atom> {
        let mut atom = Atom { words, alternatives: Default::default() };
        let mut rows = vec![0; ROOM];
        let rows = self.0.alternatives(words, &mut rows).map_err(|refusal| format!("alternatives {refusal}"))?;
        for row in rows.filter(|row| row[0] > 0) {
            atom.alternatives[row[0] as usize - 1].push([row[1], row[2]]);
        }
        Ok(atom)
    }
}
