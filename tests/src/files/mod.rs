//! Files of N-Triples that are valid by construction: each term is drawn first, and then spelled in
//! one of the ways that the grammar allows.

mod terms;

pub use terms::{numbered, vocabulary, Kind, Term};

use crate::model::ntriples::Texts;
use crate::random::Random;
use terms::{drawn, iri, label, literal, property, term};

/// Deliberate faults in the canonical texts of a file's terms.
#[derive(Clone, Copy, PartialEq, Eq)]
pub enum Fault {
    TagAsWritten,
    StringTyped,
    TabEscaped,
    LabelCut,
}

impl Fault {
    pub const ALL: [Fault; 4] = [
        Fault::TagAsWritten,
        Fault::StringTyped,
        Fault::TabEscaped,
        Fault::LabelCut,
    ];

    /// The name by which the command line calls a fault.
    pub fn name(self) -> &'static str {
        match self {
            Fault::TagAsWritten => "tag-as-written",
            Fault::StringTyped => "string-typed",
            Fault::TabEscaped => "tab-escaped",
            Fault::LabelCut => "label-cut",
        }
    }
}

/// What files are drawn from.
#[derive(Clone, Copy, PartialEq, Eq)]
pub enum Range {
    /// All that the grammar allows, but ":" in labels, which Jena 4.5 and serdi 0.30.16 do not take.
    All,
    /// That too, in labels that begin in ASCII: where another character is followed by "." or "-",
    /// raptor 2.0.15 ends the label.
    Colons,
    /// What rapper reads: raptor 2.0.15 takes labels of letters, digits and "_" alone, no ECHAR for an
    /// apostrophe, lines that end in LF, no backslash, quote or "<" in a comment, and no white space
    /// inside a literal.
    Raptor,
}

/// What the files of one source have in common.
pub struct Source {
    /// The lines of a file at most, but for a last one without an end.
    pub lines: usize,
    pub range: Range,
    /// A fault in the triples that a file says, where one is wanted.
    pub fault: Option<Fault>,
    names: Names,
}

/// Terms that come again and again.
#[derive(Default)]
struct Names {
    subjects: Vec<Term>,
    properties: Vec<Term>,
    objects: Vec<Term>,
}

impl Source {
    /// Files with terms that seldom come again.
    pub fn new(lines: usize, range: Range) -> Source {
        Source {
            lines,
            range,
            fault: None,
            names: Names::default(),
        }
    }

    /// Files with a few terms, which most lines have.
    pub fn with_names(random: &mut Random, lines: usize) -> Source {
        let mut source = Source::new(lines, Range::All);
        for _ in 0..random.between(1, 6) {
            source.names.subjects.push(term(random, 2, Range::All));
            source.names.properties.push(property(random));
            source.names.objects.push(term(random, 3, Range::All));
        }
        source
    }

    /// Files with a few terms, IRIs of which stand in each place, so that statements say something of
    /// the facts.
    pub fn with_families(random: &mut Random, lines: usize, range: Range) -> Source {
        let mut source = Source::new(lines, range);
        let count = random.between(1, 5);
        let iris: Vec<Term> = (0..count).map(|_| Term::Iri(iri(random))).collect();
        let blank = Term::Blank(label(random, range));
        source.names = Names {
            subjects: [&iris[..], std::slice::from_ref(&blank)].concat(),
            properties: [&vocabulary()[..], &iris].concat(),
            objects: [&iris[..], &[blank, literal(random)]].concat(),
        };
        source
    }
}

/// A file, and the triples that it says.
pub struct File {
    pub bytes: Vec<u8>,
    pub triples: Vec<Texts>,
}

/// Characters of comments.
const COMMENT_PLAIN: &str = "a #\t";
const COMMENT: &str = "a \"<\\#\t\u{e9}";

/// White space between terminals: where it must be, some; elsewhere now and then.
fn white(random: &mut Random, must: bool) -> String {
    let least = usize::from(must);
    let length = match random.once_in(4) {
        true => random.between(least, 3),
        false => least,
    };
    (0..length).map(|_| random.pick(&[' ', '\t'])).collect()
}

/// One of the names, where there are any and mostly, or a new term.
fn again(random: &mut Random, names: &[Term], new: impl FnOnce(&mut Random) -> Term) -> Term {
    match names.is_empty() || random.once_in(8) {
        true => new(random),
        false => names[random.below(names.len())].clone(),
    }
}

/// A line with a triple, and the triple.
fn triple(random: &mut Random, source: &Source) -> (String, Texts) {
    let Source { range, names, .. } = source;
    let terms = [
        again(random, &names.subjects, |random| term(random, 2, *range)),
        again(random, &names.properties, property),
        again(random, &names.objects, |random| term(random, 3, *range)),
    ];
    let line = line(random, terms.each_ref(), *range);
    (line, terms.map(|term| term.text(source.fault)))
}

/// The line of some terms.
fn line(random: &mut Random, terms: [&Term; 3], range: Range) -> String {
    let mut line = white(random, false);
    for term in terms {
        line += &term.spelled(random, range);
        let must = range == Range::Raptor && matches!(term, Term::Blank(_));
        line += &white(random, must);
    }
    line += ".";
    line += &white(random, false);
    line
}

/// A file of lines with some terms each.
pub fn file_of(random: &mut Random, triples: &[[&Term; 3]]) -> File {
    let mut text = String::new();
    for terms in triples {
        text += &line(random, *terms, Range::All);
        text += line_end(random, Range::All);
    }
    File {
        bytes: text.into_bytes(),
        triples: triples
            .iter()
            .map(|terms| terms.map(|term| term.text(None)))
            .collect(),
    }
}

/// A comment.
fn comment(random: &mut Random, range: Range) -> String {
    let from = match range {
        Range::All | Range::Colons => COMMENT,
        Range::Raptor => COMMENT_PLAIN,
    };
    "#".to_string() + &drawn(random, from, 8)
}

/// The end of a line.
fn line_end(random: &mut Random, range: Range) -> &'static str {
    match range {
        Range::All | Range::Colons => random.pick(&["\n", "\r\n", "\r", "\n\n"]),
        Range::Raptor => random.pick(&["\n", "\n\n"]),
    }
}

/// A file, some of whose lines are without a triple.
pub fn file(random: &mut Random, source: &Source) -> File {
    let mut text = String::new();
    let mut triples = Vec::new();
    for _ in 0..random.between(0, source.lines) {
        if random.once_in(6) {
            text += &white(random, false);
        } else {
            let (line, texts) = triple(random, source);
            text += &line;
            triples.push(texts);
        }
        if random.once_in(6) {
            text += &comment(random, source.range);
        }
        text += line_end(random, source.range);
    }
    if random.once_in(3) {
        let (line, texts) = triple(random, source);
        text += &line;
        triples.push(texts);
    }
    File {
        bytes: text.into_bytes(),
        triples,
    }
}
