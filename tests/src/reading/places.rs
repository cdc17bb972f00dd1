//! Small spaces gone through whole: each byte at each place of a line and of a dictionary, short
//! strings, and slices of no byte.

use super::{delivery_length, read};
use crate::entries;
use crate::script::Command;
use crate::session::{Failure, Harness, Session};

/// Lines that have all there is.
const LINES: [&str; 3] = [
    "<a:b> <c:d> \"e\\u0041\\n\"@en-a .",
    "_:a.b<c:d>\"x\"^^<e:\\U00000041>.#g\n",
    "\t<a:b>\t<c:d> _:c.\r\n_:d <c:d> _:c .",
];

/// A file with an empty dictionary and room enough.
fn read_small(harness: &mut Harness, file: &[u8]) -> Result<(), Failure> {
    let mut session = Session::new(harness);
    read(&mut session, file, vec![0; 120], delivery_length(2))
}

/// Each byte put in the place of each of a line, and between each two; and the line cut there.
pub fn each_byte(harness: &mut Harness) -> Result<(), Failure> {
    for line in LINES.map(str::as_bytes) {
        for at in 0..=line.len() {
            let (before, behind) = line.split_at(at);
            read_small(harness, before)?;
            for byte in 0..=255 {
                read_small(harness, &[before, &[byte], behind].concat())?;
                if let [_, behind @ ..] = behind {
                    read_small(harness, &[before, &[byte], behind].concat())?;
                }
            }
        }
    }
    Ok(())
}

/// A dictionary with a text of each kind.
const TEXTS: [&str; 4] = ["<a:b>", "_:a", "\"a\\n\"@b", "<a:c>"];

/// Each byte put in the place of each of a dictionary, and the dictionary cut there.
pub fn each_byte_of_dictionary(harness: &mut Harness) -> Result<(), Failure> {
    let texts = TEXTS.map(|text| text.as_bytes().to_vec());
    let mut whole = entries::bytes(&entries::numbered(texts));
    whole.resize(whole.len() + 15, 0);
    for at in 0..whole.len() {
        let mut session = Session::new(harness);
        read(&mut session, b"", whole[..at].to_vec(), delivery_length(0))?;
        for byte in 0..=255 {
            let mut dictionary = whole.clone();
            dictionary[at] = byte;
            read(&mut session, b"", dictionary, delivery_length(0))?;
        }
    }
    Ok(())
}

/// Where short strings stand: what is before and behind them, their bytes, and how many at most.
struct Frame {
    before: &'static str,
    behind: &'static str,
    bytes: &'static [u8],
    longest: u32,
}

/// Marks of the grammar, digits of escapes, and bytes at the edges of UTF-8.
const MARKS: &[u8] = b"<>:a\"_.\\@^ \n#";
const DIGITS: &[u8] = b"01dDfFg\"";
const FEW_DIGITS: &[u8] = b"01dF";
const UTF8: &[u8] = b"\x7f\x80\x8f\x90\x9f\xa0\xbf\xc0\xc1\xc2\xdf\xe0\xed\xef\xf0\xf4\xf5";

/// All frames.
const FRAMES: [Frame; 9] = [
    Frame::new("", MARKS, "", 4),
    Frame::new("<a:> <a:> ", MARKS, " .", 5),
    Frame::new("<a:> <a:> \"a\"", MARKS, ".", 4),
    Frame::new("_:", MARKS, "<a:> <a:> .", 4),
    Frame::new("<a:> <a:> \"\\u", DIGITS, "\" .", 5),
    Frame::new("<a:\\u", DIGITS, "> <a:> <a:> .", 4),
    Frame::new("<a:> <a:> \"\\U", FEW_DIGITS, "\" .", 8),
    Frame::new("<a:> <a:> \"", UTF8, "\" .", 4),
    Frame::new("#", UTF8, "", 4),
];

impl Frame {
    const fn new(
        before: &'static str,
        bytes: &'static [u8],
        behind: &'static str,
        longest: u32,
    ) -> Frame {
        Frame {
            before,
            behind,
            bytes,
            longest,
        }
    }

    /// The file with the string of so many bytes that has a number.
    fn file(&self, length: u32, number: usize) -> Vec<u8> {
        let count = self.bytes.len();
        let digits = (0..length).map(|i| number / count.pow(i) % count);
        let string: Vec<u8> = digits.map(|digit| self.bytes[digit]).collect();
        [self.before.as_bytes(), &string, self.behind.as_bytes()].concat()
    }
}

/// Every short string in each frame.
pub fn short_strings(harness: &mut Harness) -> Result<(), Failure> {
    for frame in FRAMES {
        for length in 0..=frame.longest {
            for number in 0..frame.bytes.len().pow(length) {
                read_small(harness, &frame.file(length, number))?;
            }
        }
    }
    Ok(())
}

/// Files, room and lengths, some of them of no byte.
const SMALL: [(&str, usize, usize); 8] = [
    ("", 0, 0),
    ("", 0, 10),
    ("", 16, 0),
    ("x", 0, 0),
    ("<a:> <a:> <a:> .", 0, 0),
    ("<a:> <a:> <a:> .", 0, 22),
    ("<a:> <a:> <a:> .", 16, 0),
    ("<a:> <a:> <a:> .", 16, 22),
];

/// Slices of no byte, as pointers to nothing and as null pointers.
pub fn no_bytes(harness: &mut Harness) -> Result<(), Failure> {
    for nulls in [false, true] {
        for (file, room, length) in SMALL {
            let mut session = Session::new(harness);
            session.run(Command::Nulls(nulls))?;
            read(&mut session, file.as_bytes(), vec![0; room], length)?;
        }
    }
    Ok(())
}
