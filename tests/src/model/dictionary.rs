//! The dictionary of texts (document 02's term book), and N-Triples read into it and a delivery
//! (slip 1).

use super::deliveries::BYTES;
use super::ntriples::{Text, Texts};
use super::terms::{is_statement_property, Triple};
use super::{Fault, Model};
use std::collections::HashMap;

/// "Vocabulary URIs get 1 to 5 in every book, without an entry."
pub const VOCABULARY: [&str; 5] = [
    "<http://www.w3.org/1999/02/22-rdf-syntax-ns#type>",
    "<http://www.w3.org/2000/01/rdf-schema#subClassOf>",
    "<http://www.w3.org/2000/01/rdf-schema#subPropertyOf>",
    "<http://www.w3.org/2000/01/rdf-schema#domain>",
    "<http://www.w3.org/2000/01/rdf-schema#range>",
];

/// The first number that no term of a kind can have.
const NUMBERS: u32 = 1 << 30;

/// The bytes of an entry in front of its text.
const HEADER: usize = 12;

/// The texts that the fault `FirstSegment` leaves: the vocabulary and as many entries as the library
/// has in one index.
const FIRST_SEGMENT: usize = 5 + 49_152;

/// A dictionary that grows.
struct Dictionary {
    model: Model,
    terms: HashMap<Text, u32>,
    /// The next number of each kind.
    next: [u32; 3],
    /// The bytes of the entries.
    bytes: Vec<u8>,
}

impl Dictionary {
    fn empty(model: Model) -> Dictionary {
        let texts = VOCABULARY.iter().map(|text| text.as_bytes().to_vec());
        let mut dictionary = Dictionary {
            model,
            terms: texts.zip(1..).collect(),
            // "URIs from 16 and the others from 1".
            next: [16, 1, 1],
            bytes: Vec::new(),
        };
        if model.has(Fault::VocabularyEntries) {
            dictionary.terms.clear();
        }
        if model.has(Fault::UrisFromOne) {
            dictionary.next = [1; 3];
        }
        dictionary
    }

    /// The dictionary of some bytes: none where they are not well formed (question 1).
    fn of(model: Model, bytes: &[u8]) -> Option<Dictionary> {
        let mut dictionary = Dictionary::empty(model);
        let mut rest = bytes;
        while rest.iter().any(|byte| *byte != 0) {
            let term = u32::from_le_bytes(rest.get(..4)?.try_into().ok()?);
            if term == 0 && model.has(Fault::BytesBehind) {
                break;
            }
            let mut length = u64::from_le_bytes(rest.get(4..HEADER)?.try_into().ok()?);
            if model.has(Fault::LengthCut) {
                length %= 1 << 32;
            }
            let length = usize::try_from(length).ok()?;
            let text = rest[HEADER..].get(..length)?;
            if term == 0 || dictionary.enter_again(text)? != term {
                return None;
            }
            rest = &rest[HEADER + length..];
        }
        Some(dictionary)
    }

    /// The term of a text of a dictionary that is "canonical, distinct and none of 1 to 5".
    fn enter_again(&mut self, text: &[u8]) -> Option<u32> {
        let canonical = self.model.term(text)?;
        if canonical != text && !self.model.has(Fault::OtherTexts) {
            return None;
        }
        if self.model.has(Fault::TextTwice) {
            self.terms.remove(text);
        }
        match self.terms.contains_key(text) {
            true => None,
            false => self.enter(text.to_vec()),
        }
    }

    /// The term of a text, which is entered where it is new; none where no number is left.
    fn enter(&mut self, text: Text) -> Option<u32> {
        if let Some(term) = self.terms.get(&text) {
            return Some(*term);
        }
        let kind = match text[0] {
            b'<' => 0,
            b'_' => 1,
            _ => 2,
        };
        let number = self.next[kind];
        if number == NUMBERS {
            return None;
        }
        self.next[kind] += 1;
        let term = (kind as u32) << 30 | number;
        self.bytes.extend(term.to_le_bytes());
        self.bytes.extend((text.len() as u64).to_le_bytes());
        self.bytes.extend(&text);
        if !(self.model.has(Fault::FirstSegment) && self.terms.len() >= FIRST_SEGMENT) {
            self.terms.insert(text, term);
        }
        Some(term)
    }
}

impl Model {
    /// Reads a file with a dictionary into a delivery: its length, or the number that refuses. 1, 13,
    /// 14 and 15 are asked in this order, each of the whole file. "A refusal leaves outputs zero, and
    /// here the book unchanged."
    pub fn read(
        &self,
        file: &[u8],
        dictionary: &mut [u8],
        delivery: &mut [u8],
    ) -> Result<usize, u32> {
        delivery.fill(0);
        let mut grown = Dictionary::of(*self, dictionary).ok_or(1u32)?;
        let lines = self.document(file).ok_or(13u32)?;
        let triples = self.triples(&mut grown, lines).ok_or(14u32)?;
        let entries = grown.bytes;
        let additions = self.additions(&triples);
        let most = match self.has(Fault::LongDelivery) {
            true => delivery.len(),
            false => delivery.len().min(BYTES),
        };
        let mut questions = [
            (14, entries.len() <= dictionary.len()),
            (15, additions.len() <= most),
        ];
        if self.has(Fault::DeliveryFirst) {
            questions.reverse();
        }
        if let Some((number, _)) = questions.into_iter().find(|(_, fits)| !fits) {
            if number == 14 && self.has(Fault::EntriesLeft) {
                dictionary.copy_from_slice(&entries[..dictionary.len()]);
            }
            return Err(number);
        }
        dictionary[..entries.len()].copy_from_slice(&entries);
        delivery[..additions.len()].copy_from_slice(&additions);
        Ok(additions.len())
    }

    /// The texts that terms have with a dictionary, those of the vocabulary too; none where its bytes are
    /// not well formed (question 1).
    pub fn dictionary_texts(&self, dictionary: &[u8]) -> Option<HashMap<u32, Text>> {
        let terms = Dictionary::of(*self, dictionary)?.terms.into_iter();
        Some(terms.map(|(text, term)| (term, text)).collect())
    }

    /// The triples of a file's lines, whose new texts are entered "in order of first sight"; none
    /// where no number is left.
    fn triples(&self, dictionary: &mut Dictionary, lines: Vec<Texts>) -> Option<Vec<Triple>> {
        let mut triples = Vec::new();
        for texts in lines {
            if self.has(Fault::ObjectFirst) {
                dictionary.enter(texts[2].clone())?;
            }
            let mut triple = [0; 3];
            for (word, text) in triple.iter_mut().zip(texts) {
                *word = dictionary.enter(text)?;
            }
            if !(self.has(Fault::CopyDropped) && triples.contains(&triple)) {
                triples.push(triple);
            }
        }
        Some(triples)
    }

    /// A delivery that adds triples, "one for each triple line, statements and facts each in file
    /// order, without extra fields".
    fn additions(&self, triples: &[Triple]) -> Vec<u8> {
        let (statements, facts): (Vec<Triple>, Vec<Triple>) = triples
            .iter()
            .partition(|triple| is_statement_property(triple[1]));
        let mut sections = [statements, facts];
        if self.has(Fault::SectionsSwapped) {
            sections.reverse();
        }
        let mut bytes = vec![0; 4];
        for section in sections {
            bytes.extend((section.len() as u16).to_le_bytes());
            bytes.extend(section.iter().flatten().flat_map(|word| word.to_le_bytes()));
        }
        bytes.extend([0, 0]);
        bytes
    }
}
