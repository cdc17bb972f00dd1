//! Terms and triples.

use std::collections::BTreeSet;

/// Subject, property, object.
pub type Triple = [u32; 3];

/// A set of triples (an RDF graph).
pub type Graph = BTreeSet<Triple>;

// "URIs 1 to 5 are the vocabulary: 1 rdf:type, 2 subClassOf, 3 subPropertyOf, 4 domain, 5 range."
pub const TYPE: u32 = 1;
pub const SUBCLASS: u32 = 2;
pub const SUBPROPERTY: u32 = 3;
pub const DOMAIN: u32 = 4;
pub const RANGE: u32 = 5;

/// "The kind lies in bits 31 and 30".
fn kind(word: u32) -> u32 {
    word >> 30
}

/// "The low 30 bits are its number".
pub fn number(word: u32) -> u32 {
    word % (1 << 30)
}

/// Kind "0 URI"; "number 0 is no term".
pub fn is_uri(word: u32) -> bool {
    kind(word) == 0 && number(word) != 0
}

/// Kind "1 blank"; "number 0 is no term".
pub fn is_blank(word: u32) -> bool {
    kind(word) == 1 && number(word) != 0
}

/// Kind "2 literal"; "number 0 is no term".
pub fn is_literal(word: u32) -> bool {
    kind(word) == 2 && number(word) != 0
}

/// Kind "3 variable"; "variables, numbered 0 to 15 and used only in questions".
pub fn is_variable(word: u32) -> bool {
    kind(word) == 3 && number(word) <= 15
}

/// "URIs 1 to 5 are the vocabulary".
fn is_vocabulary(word: u32) -> bool {
    (1..=5).contains(&word)
}

/// "A triple is subject, property, object: a URI or blank; a URI; a URI, blank or literal".
pub fn is_triple([subject, property, object]: Triple) -> bool {
    (is_uri(subject) || is_blank(subject))
        && is_uri(property)
        && (is_uri(object) || is_blank(object) || is_literal(object))
}

/// "Properties 2 to 5 make a statement, all others a fact." (A statement is a schema triple, a
/// fact an instance triple.)
pub fn is_statement_property(property: u32) -> bool {
    (2..=5).contains(&property)
}

/// "In statements no side is a vocabulary URI or literal; both sides of 3 and the subject of 4 and
/// 5 are URIs; a class may be blank."
pub fn sides_allowed([subject, property, object]: Triple) -> bool {
    let barred = |side| is_vocabulary(side) || is_literal(side);
    let uris = match property {
        SUBPROPERTY => is_uri(subject) && is_uri(object),
        DOMAIN | RANGE => is_uri(subject),
        _ => true,
    };
    !barred(subject) && !barred(object) && uris
}

/// A triple that may stand among the statements.
pub fn is_statement(triple: Triple) -> bool {
    is_triple(triple) && is_statement_property(triple[1]) && sides_allowed(triple)
}

/// A triple that may stand among the facts or the kept facts.
pub fn is_fact(triple: Triple) -> bool {
    is_triple(triple) && !is_statement_property(triple[1])
}
