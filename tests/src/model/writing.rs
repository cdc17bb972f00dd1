//! Rows written as canonical N-Triples with the texts of a dictionary (document 02, slip 3).

use super::ntriples::Text;
use super::tables;
use super::terms::Triple;
use super::{Fault, Model};
use crate::store::Table;
use std::collections::HashMap;

/// The texts of terms.
type Texts = HashMap<u32, Text>;

/// The lines of a table.
pub struct Lines {
    pub bytes: Vec<u8>,
    /// Whether each term has a text; one that has none stands there with no byte.
    known: bool,
}

impl Model {
    /// Writes the lines of a table: their length, or the number that refuses. "Checks: 16 a number has
    /// no text in the book, after 1 and before 8." "The length is the result and unused bytes are zero;
    /// a refusal leaves outputs zero".
    pub fn write(
        &self,
        table: Table,
        words: &[u32],
        dictionary: &[u8],
        output: &mut [u8],
    ) -> Result<usize, u32> {
        let lent = output.to_vec();
        output.fill(0);
        let Lines { mut bytes, known } = self.lines(table, words, dictionary).ok_or(1u32)?;
        let short = usize::from(self.has(Fault::ByteShort));
        let mut questions = [(16, known), (8, bytes.len() <= output.len() + short)];
        if self.has(Fault::FullFirst) {
            questions.reverse();
        }
        if let Some((number, _)) = questions.into_iter().find(|(_, yes)| !yes) {
            if number == 16 && self.has(Fault::OutputLeft) {
                output.copy_from_slice(&lent);
            }
            return Err(number);
        }
        if self.has(Fault::RestLeft) {
            output.copy_from_slice(&lent);
        }
        bytes.truncate(output.len());
        output[..bytes.len()].copy_from_slice(&bytes);
        Ok(bytes.len())
    }

    /// The lines of a table, "rows in table order, texts from the term book"; none where the table or
    /// the dictionary is not well formed (question 1).
    pub fn lines(&self, table: Table, words: &[u32], dictionary: &[u8]) -> Option<Lines> {
        let mut rows: Vec<Triple> = tables::read_rows(table, words)?.into_iter().collect();
        let texts = self.texts(dictionary)?;
        if self.has(Fault::RowsReversed) {
            rows.reverse();
        }
        let asked = match self.has(Fault::LastUnasked) {
            true => rows.len().saturating_sub(1),
            false => rows.len(),
        };
        let mut terms = rows[..asked].iter().flatten();
        Some(Lines {
            known: terms.all(|term| texts.contains_key(term)),
            bytes: rows
                .iter()
                .flat_map(|row| self.line(&texts, *row))
                .collect(),
        })
    }

    /// The texts that terms have with a dictionary, where it is well formed.
    fn texts(&self, dictionary: &[u8]) -> Option<Texts> {
        let mut texts = self.dictionary_texts(dictionary)?;
        if self.has(Fault::VocabularyUnknown) {
            texts.retain(|term, _| *term > 5);
        }
        if self.has(Fault::FirstPlaces) {
            texts.retain(|term, _| term % (1 << 30) < FIRST_PLACES);
        }
        Some(texts)
    }

    /// The line of a row: "each line ended by byte 10". The canonical form of RDF 1.1 N-Triples has one
    /// space behind each term, and no other white space.
    fn line(&self, texts: &Texts, row: Triple) -> Text {
        let [between, before, end] = match self.fault {
            Some(Fault::TwoSpaces) => ["  ", "  ", "\n"],
            Some(Fault::NoLastSpace) => [" ", "", "\n"],
            Some(Fault::ReturnedLine) => [" ", " ", "\r\n"],
            _ => [" ", " ", "\n"],
        };
        let [subject, property, object] = row.map(|term| self.text(texts, term));
        let terms = [subject, property, object].join(between.as_bytes());
        [&terms, before.as_bytes(), b".", end.as_bytes()].concat()
    }

    /// The text of a term, or no byte.
    fn text(&self, texts: &Texts, term: u32) -> Text {
        let mut text = texts.get(&term);
        if self.has(Fault::NeighbourText) {
            text = texts.get(&(term + 1)).or(text);
        }
        let text = text.cloned().unwrap_or_default();
        match self.has(Fault::TabWritten) {
            true => with_escaped_tabs(&text),
            false => text,
        }
    }
}

/// The first number of URIs whose text the fault `FirstPlaces` loses: the library has places for the
/// first 16,384 texts of a kind at once.
const FIRST_PLACES: u32 = 16 + 16_384;

/// A text with each tab as an escape.
fn with_escaped_tabs(text: &[u8]) -> Text {
    let parts: Vec<&[u8]> = text.split(|byte| *byte == b'\t').collect();
    parts.join(&b"\\t"[..])
}
