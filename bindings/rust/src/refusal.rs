//! Why a call was refused.

use std::error::Error;
use std::fmt;

/// The refusals of document 01, "Questions at the door", and of document 02, by their numbers. A
/// refused update or delivery changes no table; a refused question, alternatives call or listing
/// leaves its whole output zero; a refused reading changes no byte of the dictionary and leaves the
/// delivery zero; a refused writing leaves its whole output zero.
#[derive(Clone, Copy, PartialEq, Eq, Debug)]
pub enum Refusal {
    /// The tables, or a dictionary, are not well formed. No call leaves such; a caller who writes
    /// them can.
    Malformed = 1,
    /// The three words of an update are no triple.
    NoTriple = 2,
    /// A side of a statement is not allowed there.
    Sides = 3,
    /// The table of what is added has no room for one more row.
    TableFull = 4,
    /// The kept facts would not fit.
    KeptFull = 5,
    /// A question or an atom has another layout, or a term that may not stand in its place.
    Question = 6,
    /// A head variable stands in no atom.
    Head = 7,
    /// The rows, or their lines, do not all fit the output.
    OutputFull = 8,
    /// A delivery is not whole, does not end at its last byte, or is too long.
    Delivery = 9,
    /// The property of an entry does not belong to the entry's section.
    Section = 10,
    /// A delivery has two delivery numbers, or one that has not four bytes.
    DeliveryNumber = 11,
    /// There is no such column order. [`Order`](crate::Order) has no value that is refused.
    Order = 12,
    /// A file is no UTF-8, a line breaks the grammar of N-Triples or has a relative IRI, or an escape
    /// gives no character or one that may not stand there.
    Line = 13,
    /// The dictionary has no room for the new texts, or no numbers left.
    DictionaryFull = 14,
    /// The delivery does not fit its bytes, or would be too long.
    DeliveryFull = 15,
    /// A term of the rows that are to be written has no text.
    NoText = 16,
}

impl Refusal {
    /// All of them, by number.
    pub const ALL: [Refusal; 16] = [
        Refusal::Malformed,
        Refusal::NoTriple,
        Refusal::Sides,
        Refusal::TableFull,
        Refusal::KeptFull,
        Refusal::Question,
        Refusal::Head,
        Refusal::OutputFull,
        Refusal::Delivery,
        Refusal::Section,
        Refusal::DeliveryNumber,
        Refusal::Order,
        Refusal::Line,
        Refusal::DictionaryFull,
        Refusal::DeliveryFull,
        Refusal::NoText,
    ];

    /// Its number in the documents.
    pub fn number(self) -> u32 {
        self as u32
    }

    /// The refusal that the library gave by its number.
    pub(crate) fn of(number: u32) -> Refusal {
        let mut all = Refusal::ALL.into_iter();
        all.find(|refusal| refusal.number() == number)
            .unwrap_or_else(|| panic!("the library refused by {number}, which is no refusal"))
    }

    /// What was found wrong.
    fn reason(self) -> &'static str {
        match self {
            Refusal::Malformed => "the tables or the dictionary are not well formed",
            Refusal::NoTriple => "it is no triple",
            Refusal::Sides => "a side of the statement is not allowed",
            Refusal::TableFull => "its table is full",
            Refusal::KeptFull => "the kept facts would not fit",
            Refusal::Question => "the question or atom is not laid out right",
            Refusal::Head => "a head variable stands in no atom",
            Refusal::OutputFull => "the rows or their lines do not fit the output",
            Refusal::Delivery => "the delivery is not whole or too long",
            Refusal::Section => "an entry stands in the wrong section",
            Refusal::DeliveryNumber => {
                "the delivery number stands there twice or is not four bytes"
            }
            Refusal::Order => "there is no such order",
            Refusal::Line => "a line of the file is not N-Triples",
            Refusal::DictionaryFull => "the new texts do not fit the dictionary",
            Refusal::DeliveryFull => "the triples do not fit the delivery",
            Refusal::NoText => "a term has no text",
        }
    }
}

impl fmt::Display for Refusal {
    fn fmt(&self, f: &mut fmt::Formatter<'_>) -> fmt::Result {
        write!(f, "refused by {}: {}", self.number(), self.reason())
    }
}

impl Error for Refusal {}
