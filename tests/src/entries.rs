//! Dictionaries put together from entries, and taken apart.

/// The bytes of an entry in front of its text.
const HEADER: usize = 12;

/// An entry: its term, the length that it says, and its text.
#[derive(Clone)]
pub struct Entry {
    pub term: u32,
    pub length: u64,
    pub text: Vec<u8>,
}

impl Entry {
    pub fn new(term: u32, text: Vec<u8>) -> Entry {
        Entry {
            term,
            length: text.len() as u64,
            text,
        }
    }
}

/// The kind of a text, by its first mark.
fn kind_of(text: &[u8]) -> u32 {
    match text.first() {
        Some(b'<') => 0,
        Some(b'_') => 1,
        _ => 2,
    }
}

/// Entries with texts, numbered as they should be.
pub fn numbered(texts: impl IntoIterator<Item = Vec<u8>>) -> Vec<Entry> {
    let mut next = [16, 1, 1];
    let mut entries = Vec::new();
    for text in texts {
        let kind = kind_of(&text);
        let number = &mut next[kind as usize];
        entries.push(Entry::new(kind << 30 | *number, text));
        *number += 1;
    }
    entries
}

/// The bytes of entries.
pub fn bytes(entries: &[Entry]) -> Vec<u8> {
    let mut bytes = Vec::new();
    for entry in entries {
        bytes.extend(entry.term.to_le_bytes());
        bytes.extend(entry.length.to_le_bytes());
        bytes.extend(&entry.text);
    }
    bytes
}

/// The entries of a dictionary that is well formed.
pub fn of(dictionary: &[u8]) -> Vec<Entry> {
    let mut entries = Vec::new();
    let mut rest = dictionary;
    while let Some((header, behind)) = rest.split_at_checked(HEADER) {
        let (term, length) = header.split_at(4);
        let term = u32::from_le_bytes(term.try_into().expect("four bytes"));
        let length = u64::from_le_bytes(length.try_into().expect("eight bytes"));
        if term == 0 {
            break;
        }
        let (text, behind) = behind.split_at(length as usize);
        entries.push(Entry::new(term, text.to_vec()));
        rest = behind;
    }
    entries
}
