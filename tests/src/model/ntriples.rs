//! A reader of N-Triples, written from the grammar of the W3C Recommendation (RDF 1.1 N-Triples,
//! section 7) and document 02, slip 1. Productions are named and numbered as there.

use super::{Fault, Model};

/// The canonical text of a term, in UTF-8.
pub type Text = Vec<u8>;

/// The texts of a line's subject, predicate and object.
pub type Texts = [Text; 3];

/// The datatype of a literal that has none written.
const XSD_STRING: &str = "http://www.w3.org/2001/XMLSchema#string";

impl Model {
    /// [1] ntriplesDoc: the triples of a file, in file order; none where a line is wrong or the bytes
    /// are no UTF-8. Every CR and every LF ends a line.
    pub fn document(&self, file: &[u8]) -> Option<Vec<Texts>> {
        let text = self.decoded(file)?;
        let mut triples = Vec::new();
        for line in text.split(['\r', '\n']) {
            let characters: Vec<char> = line.chars().collect();
            triples.extend(self.line_triple(&characters)?);
        }
        Some(triples)
    }

    /// The text that some bytes are, read as an object up to their last: its canonical form.
    pub fn term(&self, bytes: &[u8]) -> Option<Text> {
        let characters: Vec<char> = self.decoded(bytes)?.chars().collect();
        match self.object(&characters)? {
            (text, []) => Some(text),
            _ => None,
        }
    }

    /// The characters of some bytes of UTF-8.
    fn decoded(&self, bytes: &[u8]) -> Option<String> {
        let mut bytes = bytes.to_vec();
        if self.has(Fault::OverlongForm) {
            bytes = without_overlong_forms(&bytes);
        }
        String::from_utf8(bytes).ok()
    }

    /// What a line says: a triple, or none where it has white space and a comment at most.
    fn line_triple(&self, line: &[char]) -> Option<Option<Texts>> {
        let rest = space(line);
        if is_over(rest) {
            return Some(None);
        }
        let (subject, rest) = self.subject(rest)?;
        let (predicate, rest) = self.iriref(space(rest))?;
        let (object, rest) = self.object(space(rest))?;
        let rest = space(mark(space(rest), '.')?);
        is_over(rest).then_some(Some([subject, in_angles(&predicate), object]))
    }

    /// [3] subject ::= IRIREF | BLANK_NODE_LABEL
    fn subject<'a>(&self, rest: &'a [char]) -> Option<(Text, &'a [char])> {
        match rest {
            ['_', ..] => self.blank_node_label(rest),
            _ => self.iriref(rest).map(|(iri, rest)| (in_angles(&iri), rest)),
        }
    }

    /// [5] object ::= IRIREF | BLANK_NODE_LABEL | literal
    fn object<'a>(&self, rest: &'a [char]) -> Option<(Text, &'a [char])> {
        match rest {
            ['"', ..] => self.literal(rest),
            _ => self.subject(rest),
        }
    }

    /// [6] literal ::= STRING_LITERAL_QUOTE ('^^' IRIREF | LANGTAG)?
    fn literal<'a>(&self, rest: &'a [char]) -> Option<(Text, &'a [char])> {
        let (string, behind) = self.string_literal_quote(rest)?;
        let quoted = match self.has(Fault::TabEscape) {
            true => format!("\"{}\"", escaped(&string).replace('\t', "\\t")),
            false => format!("\"{}\"", escaped(&string)),
        };
        match space(behind) {
            ['@', tag @ ..] => {
                let (tag, rest) = self.langtag(tag)?;
                Some((format!("{quoted}@{tag}").into_bytes(), rest))
            }
            ['^', rest @ ..] => {
                let (datatype, rest) = self.iriref(space(mark(rest, '^')?))?;
                let text = match datatype.as_str() {
                    XSD_STRING if !self.has(Fault::StringType) => quoted,
                    _ => format!("{quoted}^^<{datatype}>"),
                };
                Some((text.into_bytes(), rest))
            }
            _ => Some((quoted.into_bytes(), behind)),
        }
    }

    /// [144s] LANGTAG, behind '@', in lower case.
    fn langtag<'a>(&self, rest: &'a [char]) -> Option<(String, &'a [char])> {
        let (mut tag, mut rest) = run(rest, |c| c.is_ascii_alphabetic());
        if tag.is_empty() {
            return None;
        }
        while let ['-', behind @ ..] = rest {
            let (part, behind) = run(behind, |c| c.is_ascii_alphanumeric());
            if part.is_empty() {
                break;
            }
            tag += "-";
            tag += &part;
            rest = behind;
        }
        if !self.has(Fault::TagCapitals) {
            tag.make_ascii_lowercase();
        }
        Some((tag, rest))
    }

    /// [8] IRIREF, with its escapes resolved: "IRIs may be written only as absolute IRIs".
    fn iriref<'a>(&self, rest: &'a [char]) -> Option<(String, &'a [char])> {
        let (iri, rest) = self.closed(mark(rest, '<')?, '>', |_| None)?;
        let may_stand = |c: char| !is_barred(c) || (self.has(Fault::BarredEscape) && c == '>');
        let absolute = is_absolute(&iri) || self.has(Fault::RelativeIri);
        (iri.chars().all(may_stand) && absolute).then_some((iri, rest))
    }

    /// [9] STRING_LITERAL_QUOTE, with its escapes resolved.
    fn string_literal_quote<'a>(&self, rest: &'a [char]) -> Option<(String, &'a [char])> {
        self.closed(mark(rest, '"')?, '"', echar)
    }

    /// Characters up to a closing mark; behind a backslash [10] UCHAR, or what an ECHAR stands for.
    fn closed<'a>(
        &self,
        mut rest: &'a [char],
        close: char,
        echar: fn(char) -> Option<char>,
    ) -> Option<(String, &'a [char])> {
        let mut resolved = String::new();
        loop {
            match rest {
                [] => return None,
                ['\\', 'u', behind @ ..] => {
                    resolved.push(self.uchar(behind, 4)?);
                    rest = &behind[4..];
                }
                ['\\', 'U', behind @ ..] => {
                    resolved.push(self.uchar(behind, 8)?);
                    rest = &behind[8..];
                }
                ['\\', letter, behind @ ..] => {
                    resolved.push(echar(*letter)?);
                    rest = behind;
                }
                ['\\'] => return None,
                [c, behind @ ..] if *c == close => return Some((resolved, behind)),
                [c, behind @ ..] => {
                    resolved.push(*c);
                    rest = behind;
                }
            }
        }
    }

    /// The character whose number so many hexadecimal digits are: none for a surrogate, nor above
    /// 10FFFF.
    fn uchar(&self, rest: &[char], digits: usize) -> Option<char> {
        let mut number = 0u64;
        for digit in rest.get(..digits)? {
            number = number * 16 + u64::from(digit.to_digit(16)?);
        }
        if self.has(Fault::SurrogateEscape) && (0xd800..0xe000).contains(&number) {
            return Some(char::REPLACEMENT_CHARACTER);
        }
        char::from_u32(u32::try_from(number).ok()?)
    }

    /// [141s] BLANK_NODE_LABEL: the longest match, which does not end in a dot.
    fn blank_node_label<'a>(&self, rest: &'a [char]) -> Option<(Text, &'a [char])> {
        let rest = mark(mark(rest, '_')?, ':')?;
        let first = rest.first()?;
        if !is_pn_chars_u(*first) && !first.is_ascii_digit() {
            return None;
        }
        let goes_on =
            |c: char| is_pn_chars(c) || c == '.' || (self.has(Fault::LabelEdge) && c == '\u{37e}');
        let mut length = 1 + rest[1..].iter().take_while(|c| goes_on(**c)).count();
        while rest[length - 1] == '.' && !self.has(Fault::LabelDot) {
            length -= 1;
        }
        let label: String = rest[..length].iter().collect();
        Some((format!("_:{label}").into_bytes(), &rest[length..]))
    }
}

/// The bytes with one in place of each two that stand for a character below U+0080.
fn without_overlong_forms(bytes: &[u8]) -> Vec<u8> {
    let mut short = Vec::new();
    let mut rest = bytes;
    while let [first, behind @ ..] = rest {
        if let [0xc0..=0xc1, second @ 0x80..=0xbf, behind @ ..] = rest {
            short.push(first << 6 | (second & 0x3f));
            rest = behind;
        } else {
            short.push(*first);
            rest = behind;
        }
    }
    short
}

/// Whether nothing is left of a line but a comment.
fn is_over(rest: &[char]) -> bool {
    rest.first().map_or(true, |c| *c == '#')
}

/// What is behind white space: tab and space.
fn space(mut rest: &[char]) -> &[char] {
    while let [' ' | '\t', behind @ ..] = rest {
        rest = behind;
    }
    rest
}

/// What is behind a character that must stand there.
fn mark(rest: &[char], wanted: char) -> Option<&[char]> {
    match rest {
        [c, behind @ ..] if *c == wanted => Some(behind),
        _ => None,
    }
}

/// The UTF-8 of an IRI as a text.
fn in_angles(iri: &str) -> Text {
    format!("<{iri}>").into_bytes()
}

/// A string as canonical N-Triples writes it: the four characters that cannot stand in it escaped.
pub fn escaped(string: &str) -> String {
    let mut text = String::new();
    for c in string.chars() {
        match c {
            '"' => text += "\\\"",
            '\\' => text += "\\\\",
            '\n' => text += "\\n",
            '\r' => text += "\\r",
            _ => text.push(c),
        }
    }
    text
}

/// The longest run of characters of a kind.
fn run(rest: &[char], kind: fn(char) -> bool) -> (String, &[char]) {
    let length = rest.iter().take_while(|c| kind(**c)).count();
    (rest[..length].iter().collect(), &rest[length..])
}

/// [153s] ECHAR, behind the backslash.
fn echar(letter: char) -> Option<char> {
    Some(match letter {
        't' => '\t',
        'b' => '\u{8}',
        'n' => '\n',
        'r' => '\r',
        'f' => '\u{c}',
        '"' | '\'' | '\\' => letter,
        _ => return None,
    })
}

/// What IRIREF excludes, as it is or by an escape.
fn is_barred(c: char) -> bool {
    c <= ' ' || "<>\"{}|^`\\".contains(c)
}

/// A scheme and a colon in front: a letter, then letters, digits, '+', '-' and '.'.
fn is_absolute(iri: &str) -> bool {
    let Some((scheme, _)) = iri.split_once(':') else {
        return false;
    };
    let follows = |c: char| c.is_ascii_alphanumeric() || "+-.".contains(c);
    scheme.starts_with(|c: char| c.is_ascii_alphabetic()) && scheme.chars().all(follows)
}

/// [157s] PN_CHARS_BASE
fn is_pn_chars_base(c: char) -> bool {
    matches!(c, 'A'..='Z' | 'a'..='z' | '\u{C0}'..='\u{D6}' | '\u{D8}'..='\u{F6}'
        | '\u{F8}'..='\u{2FF}' | '\u{370}'..='\u{37D}' | '\u{37F}'..='\u{1FFF}'
        | '\u{200C}'..='\u{200D}' | '\u{2070}'..='\u{218F}' | '\u{2C00}'..='\u{2FEF}'
        | '\u{3001}'..='\u{D7FF}' | '\u{F900}'..='\u{FDCF}' | '\u{FDF0}'..='\u{FFFD}'
        | '\u{10000}'..='\u{EFFFF}')
}

/// [158s] PN_CHARS_U
fn is_pn_chars_u(c: char) -> bool {
    is_pn_chars_base(c) || c == '_' || c == ':'
}

/// [160s] PN_CHARS
fn is_pn_chars(c: char) -> bool {
    is_pn_chars_u(c)
        || matches!(c, '-' | '0'..='9' | '\u{B7}' | '\u{300}'..='\u{36F}' | '\u{203F}'..='\u{2040}')
}
