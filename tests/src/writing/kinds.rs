//! Texts and terms of each kind by a number.

use crate::generate::{BLANK, LITERAL};

/// The kinds of terms.
#[derive(Clone, Copy)]
pub enum Kind {
    Uri,
    Blank,
    Literal,
}

impl Kind {
    pub const ALL: [Kind; 3] = [Kind::Uri, Kind::Blank, Kind::Literal];

    /// The text with a number.
    pub fn text(self, number: usize) -> String {
        match self {
            Kind::Uri => format!("<p:{number}>"),
            Kind::Blank => format!("_:b{number}"),
            Kind::Literal => format!("\"{number}\""),
        }
    }

    /// The term of the text with a number, where these are numbered from 0.
    pub fn term(self, number: usize) -> u32 {
        let first = match self {
            Kind::Uri => 16,
            Kind::Blank => BLANK + 1,
            Kind::Literal => LITERAL + 1,
        };
        first + number as u32
    }

    /// The words or the texts of a row in which one of this kind stands, beside the type and another.
    pub fn beside<T: Copy>(self, one: T, of_type: T, other: T) -> [T; 3] {
        match self {
            Kind::Uri | Kind::Blank => [one, of_type, other],
            Kind::Literal => [other, of_type, one],
        }
    }
}
