//! Terms of files: drawn, their canonical texts, and their spellings.

use super::{white, Fault, Range};
use crate::model::ntriples::{escaped, Text};
use crate::random::Random;

/// A term as it was drawn, escapes aside.
#[derive(Clone)]
pub enum Term {
    Iri(String),
    Blank(String),
    /// A string, and its tag or its datatype.
    Literal(String, Suffix),
}

/// The kinds of terms.
#[derive(Clone, Copy)]
pub enum Kind {
    Iri,
    Blank,
    Literal,
}

/// What stands behind the string of a literal.
#[derive(Clone)]
pub enum Suffix {
    None,
    Tag(String),
    Datatype(String),
}

/// Characters that may stand in an IRI behind its scheme, as they are. (Jena takes none of four
/// bytes there.)
const IRI: &str = "aZ0/#?:.-_~%'\u{e9}\u{df}\u{3b1}\u{20ac}\u{fdf0}";

/// Characters of strings: the four that are escaped, others of one byte, and some of two to four.
const STRING: &str = "\"\\\n\r\t\u{8}\u{c}'#>@^ aZ\u{e9}\u{7ff}\u{20ac}\u{ffee}\u{1f600}";

/// Characters that begin a label, and those that go on with it.
const LABEL: &str = "aZ_09\u{e9}\u{3b1}\u{10400}";
const LABEL_ASCII: &str = "aZ_09";
const LABEL_COLON: &str = "aZ_09::";
const LABEL_ON: &str = "aZ_0-..\u{b7}\u{301}\u{203f}\u{e9}\u{10400}";
const LABEL_ON_COLON: &str = "aZ_0-..::\u{b7}\u{301}\u{203f}\u{e9}\u{10400}";

/// Tags in all sorts of letters.
const TAGS: [&str; 6] = ["en", "EN", "de-CH", "sl-rozaj-1994", "X-a1-B2", "fr-be"];

/// Datatypes: none that a canonical text has, and others.
const DATATYPES: [&str; 3] = [
    "http://www.w3.org/2001/XMLSchema#string",
    "http://www.w3.org/2001/XMLSchema#integer",
    "p:type",
];

/// Properties, those of statements among them.
const PROPERTIES: [&str; 6] = [
    "http://www.w3.org/1999/02/22-rdf-syntax-ns#type",
    "http://www.w3.org/2000/01/rdf-schema#subClassOf",
    "http://www.w3.org/2000/01/rdf-schema#subPropertyOf",
    "http://www.w3.org/2000/01/rdf-schema#domain",
    "http://www.w3.org/2000/01/rdf-schema#range",
    "p:property",
];

/// One of some characters.
fn one_of(random: &mut Random, from: &str) -> char {
    let at = random.below(from.chars().count());
    from.chars().nth(at).expect("a character")
}

/// So many characters at most, from some.
pub fn drawn(random: &mut Random, from: &str, most: usize) -> String {
    (0..random.between(0, most))
        .map(|_| one_of(random, from))
        .collect()
}

pub fn iri(random: &mut Random) -> String {
    let scheme = random.pick(&["p:", "http://e/", "urn:x-1:", "A+b.c-d:"]);
    scheme.to_string() + &drawn(random, IRI, 6)
}

/// A label, which does not end in a dot.
pub fn label(random: &mut Random, range: Range) -> String {
    let (first, on) = match range {
        Range::All => (LABEL, LABEL_ON),
        Range::Colons => (LABEL_COLON, LABEL_ON_COLON),
        Range::Raptor => (LABEL_ASCII, LABEL_ASCII),
    };
    let label = one_of(random, first).to_string() + &drawn(random, on, 5);
    label.trim_end_matches('.').to_string()
}

fn suffix(random: &mut Random) -> Suffix {
    match random.below(3) {
        0 => Suffix::None,
        1 => Suffix::Tag(random.pick(&TAGS).to_string()),
        _ => Suffix::Datatype(random.pick(&DATATYPES).to_string()),
    }
}

pub fn literal(random: &mut Random) -> Term {
    let suffix = suffix(random);
    Term::Literal(drawn(random, STRING, 8), suffix)
}

/// An IRI, one with a meaning among them, or a blank node; for an object a literal too.
pub fn term(random: &mut Random, kinds: usize, range: Range) -> Term {
    match random.below(kinds) {
        0 if random.once_in(16) => property(random),
        0 => Term::Iri(iri(random)),
        1 => Term::Blank(label(random, range)),
        _ => literal(random),
    }
}

/// An IRI, a blank node or a literal that no other number gives: no name or string has an "n".
pub fn numbered(random: &mut Random, kind: Kind, number: usize) -> Term {
    let name = |name: String| format!("{name}n{number}");
    match kind {
        Kind::Iri => Term::Iri(name(iri(random))),
        Kind::Blank => Term::Blank(name(label(random, Range::All))),
        Kind::Literal => {
            let suffix = suffix(random);
            Term::Literal(name(drawn(random, STRING, 8)), suffix)
        }
    }
}

/// A property: one that has a meaning, or any IRI.
pub fn property(random: &mut Random) -> Term {
    match random.below(2) {
        0 => Term::Iri(random.pick(&PROPERTIES).to_string()),
        _ => Term::Iri(iri(random)),
    }
}

/// The terms of the vocabulary, 1 to 5.
pub fn vocabulary() -> [Term; 5] {
    [0, 1, 2, 3, 4].map(|at: usize| Term::Iri(PROPERTIES[at].to_string()))
}

impl Term {
    /// The canonical text, with a fault where one is planted.
    pub fn text(&self, fault: Option<Fault>) -> Text {
        let has = |wanted: Fault| fault == Some(wanted);
        let text = match self {
            Term::Iri(iri) => format!("<{iri}>"),
            Term::Blank(label) if has(Fault::LabelCut) => {
                format!("_:{}", label.split('.').next().unwrap_or_default())
            }
            Term::Blank(label) => format!("_:{label}"),
            Term::Literal(string, suffix) => {
                let string = match has(Fault::TabEscaped) {
                    true => escaped(string).replace('\t', "\\t"),
                    false => escaped(string),
                };
                match suffix {
                    Suffix::Tag(tag) if has(Fault::TagAsWritten) => format!("\"{string}\"@{tag}"),
                    Suffix::Tag(tag) => format!("\"{string}\"@{}", tag.to_ascii_lowercase()),
                    Suffix::Datatype(iri) if *iri != DATATYPES[0] || has(Fault::StringTyped) => {
                        format!("\"{string}\"^^<{iri}>")
                    }
                    _ => format!("\"{string}\""),
                }
            }
        };
        text.into_bytes()
    }

    /// One of its spellings.
    pub fn spelled(&self, random: &mut Random, range: Range) -> String {
        match self {
            Term::Iri(iri) => format!("<{}>", spelled_iri(random, iri)),
            Term::Blank(label) => format!("_:{label}"),
            Term::Literal(string, suffix) => {
                let quoted = format!("\"{}\"", spelled_string(random, string, range));
                let [before, between] = match range {
                    Range::Raptor => Default::default(),
                    Range::All | Range::Colons => [0, 1].map(|_| white(random, false)),
                };
                match suffix {
                    Suffix::None => quoted,
                    Suffix::Tag(tag) => format!("{quoted}{before}@{tag}"),
                    Suffix::Datatype(iri) => {
                        format!("{quoted}{before}^^{between}<{}>", spelled_iri(random, iri))
                    }
                }
            }
        }
    }
}

/// A character by UCHAR, its digits in small letters or in capitals.
fn uchar(random: &mut Random, c: char) -> String {
    let number = u32::from(c);
    match (number < 0x1_0000 && random.once_in(2), random.once_in(2)) {
        (true, true) => format!("\\u{number:04x}"),
        (true, false) => format!("\\u{number:04X}"),
        (false, true) => format!("\\U{number:08x}"),
        (false, false) => format!("\\U{number:08X}"),
    }
}

/// An IRI's characters, some of them by UCHAR.
fn spelled_iri(random: &mut Random, iri: &str) -> String {
    let spell = |c: char| match random.once_in(8) {
        true => uchar(random, c),
        false => c.to_string(),
    };
    iri.chars().map(spell).collect()
}

/// A string's characters: as they are where they may be, by ECHAR where there is one, or by UCHAR.
fn spelled_string(random: &mut Random, string: &str, range: Range) -> String {
    let spell = |c: char| {
        let letter = match c {
            '\t' => 't',
            '\u{8}' => 'b',
            '\n' => 'n',
            '\r' => 'r',
            '\u{c}' => 'f',
            '"' | '\\' => c,
            '\'' if range != Range::Raptor => c,
            _ if random.once_in(8) => return uchar(random, c),
            _ => return c.to_string(),
        };
        match (random.below(3), "\"\\\n\r".contains(c)) {
            (0, _) => uchar(random, c),
            (1, false) => c.to_string(),
            _ => format!("\\{letter}"),
        }
    };
    string.chars().map(spell).collect()
}
