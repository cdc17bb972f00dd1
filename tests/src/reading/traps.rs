//! The traps of reading: small files on which a careless reader is wrong, with what each must give.

use super::{delivery_length, expect};
use crate::entries::{self, Entry};
use crate::script::{Command, Expected};
use crate::session::{Failure, Harness, Session};

/// A file, a dictionary, the delivery's length, and the reply.
type Case = (&'static str, Vec<u8>, usize, Result<u32, u32>);

/// A dictionary of so many bytes with some entries.
fn lent(length: usize, entries: &[(u32, &str)]) -> Vec<u8> {
    let entries = entries.iter();
    let entries: Vec<Entry> = entries
        .map(|(term, text)| Entry::new(*term, text.as_bytes().to_vec()))
        .collect();
    let mut bytes = entries::bytes(&entries);
    bytes.resize(length, 0);
    bytes
}

/// What each file gives: a refusal, or how long the delivery is.
fn cases() -> Vec<Case> {
    let three = [
        (16, "<http://e/s>"),
        (17, "<http://e/p>"),
        (18, "<http://e/o>"),
    ];
    let triple = "<http://e/s> <http://e/p> <http://e/o> .";
    let mut long = lent(40, &[(16, "<p:a>")]);
    long[4..12].copy_from_slice(&(u64::MAX - 4).to_le_bytes());
    let mut behind = lent(40, &[(16, "<p:a>")]);
    behind[30] = 1;
    vec![
        ("<p:a> <p:b> <p:c> .\nx", vec![0; 5], 0, Err(13)),
        ("<http://e/\\u006F> <http://e/p> <http://e/s> .", lent(72, &three), 22, Ok(22)),
        (triple, vec![0; 71], 0, Err(14)),
        (triple, vec![0; 72], 21, Err(15)),
        (triple, vec![0; 72], 22, Ok(22)),
        ("", Vec::new(), 9, Err(15)),
        ("", Vec::new(), 10, Ok(10)),
        ("<http://e/s><http://e/p>_:b.", vec![0; 99], 99, Ok(22)),
        ("<p:a> <p:b> _:b..", vec![0; 99], 99, Err(13)),
        ("<p:a> <p:b> _:a.b.", lent(51, &[(16, "<p:a>"), (17, "<p:b>"), (0x4000_0001, "_:a.b")]), 22, Ok(22)),
        ("<p:a> <p:b> \"a\"@en-US .\n<p:a> <p:b> \"a\"@EN-us .", vec![0; 55], 34, Ok(34)),
        ("<p:a> <p:b> \"a\" .\n<p:a> <p:b> \"a\"^^<http://www.w3.org/2001/XMLSchema#\\u0073tring> .", vec![0; 49], 34, Ok(34)),
        ("<p:a> <p:b> <http://e/\\u003E> .", vec![0; 99], 99, Err(13)),
        ("<p:a> <p:b> <http://e/\\u0020> .", vec![0; 99], 99, Err(13)),
        ("<p:a> <p:b> <http://e/\\n> .", vec![0; 99], 99, Err(13)),
        ("<p:a> <p:b> \"\\u003E\" .", vec![0; 99], 99, Ok(22)),
        ("<p:a> <p:b> \"\\uD83D\\uDE00\" .", vec![0; 99], 99, Err(13)),
        ("<p:a> <p:b> \"\\U00110000\" .", vec![0; 99], 99, Err(13)),
        ("<p:a> <p:b> \"\\uFFFE\\u0000\" .", vec![0; 99], 99, Ok(22)),
        ("<s> <http://e/p> <http://e/o> .", vec![0; 99], 99, Err(13)),
        ("<a:> <a:> <a:> .", vec![0; 16], 22, Ok(22)),
        ("<p:a> <p:b> <p:c> . <p:a> <p:b> <p:c> .", vec![0; 99], 99, Err(13)),
        ("\u{feff}<p:a> <p:b> <p:c> .", vec![0; 99], 99, Err(13)),
        ("<p:a> <p:b> \"a\" ^^ <p:t> . # \u{e9}", vec![0; 99], 99, Ok(22)),
        ("# nothing", lent(40, &[(17, "<p:a>")]), 10, Err(1)),
        ("# nothing", lent(40, &[(0x8000_0001, "\"a\"@EN")]), 10, Err(1)),
        ("# nothing", lent(60, &[(16, "<http://e/\\u0073>")]), 10, Err(1)),
        ("# nothing", lent(60, &[(16, "<p:a>"), (17, "<p:a>")]), 10, Err(1)),
        ("# nothing", lent(80, &[(16, "<http://www.w3.org/2000/01/rdf-schema#range>")]), 10, Err(1)),
        ("# nothing", long, 10, Err(1)),
        ("# nothing", behind, 10, Err(1)),
        ("# nothing", lent(40, &[(16, "<p:a>")]), 10, Ok(10)),
    ]
}

/// Each trap gives what it must; a refusal leaves the dictionary as it was and zeros.
pub fn run(harness: &mut Harness) -> Result<(), Failure> {
    for (file, dictionary, length, reply) in cases() {
        let mut session = Session::new(harness);
        let number = reply.err().unwrap_or(0);
        expect(
            &mut session,
            file.as_bytes(),
            dictionary.clone(),
            length,
            number,
        )?;
        session.run(Command::Expect(Expected::Count(reply.unwrap_or(0))))?;
        if reply.is_err() {
            session.run(Command::Expect(Expected::Dictionary(dictionary)))?;
            session.run(Command::Expect(Expected::Delivery(vec![0; length])))?;
        }
    }
    Ok(())
}

/// Objects as they are written, and their canonical texts.
pub const CANONICAL: [(&str, &str); 14] = [
    ("<\\u0068ttp://e/A>", "<http://e/A>"),
    ("<http://e/%41/../a>", "<http://e/%41/../a>"),
    ("_:a.b", "_:a.b"),
    ("_::0", "_::0"),
    ("\"\\t\\b\\f\\'\"", "\"\t\u{8}\u{c}'\""),
    ("\"\\u000A\\u000d\\u0022\\u005C\"", "\"\\n\\r\\\"\\\\\""),
    ("\"\\U0001F600\\u0000\\uFFFE\"", "\"\u{1f600}\0\u{fffe}\""),
    ("\"\\u003E\"", "\">\""),
    ("\"01\" ^^ <p:\\u0074>", "\"01\"^^<p:t>"),
    ("\"a\"\t@EN-us", "\"a\"@en-us"),
    ("\"a\"@de-1994-\u{4b}", "\"a\"@de-1994-k"),
    (
        "\"a\"^^<http://www.w3.org/2001/XMLSchema#\\u0073tring>",
        "\"a\"",
    ),
    (
        "\"a\"^^<http://www.w3.org/2001/XMLSchema#String>",
        "\"a\"^^<http://www.w3.org/2001/XMLSchema#String>",
    ),
    (
        "\"a\"^^<http://www.w3.org/1999/02/22-rdf-syntax-ns#langString>",
        "\"a\"^^<http://www.w3.org/1999/02/22-rdf-syntax-ns#langString>",
    ),
];

/// Each object is entered by its canonical text.
pub fn texts(harness: &mut Harness) -> Result<(), Failure> {
    for (written, text) in CANONICAL {
        let file = format!("<a:> <a:> {written} .");
        let known = ["<a:>", text].map(|text| text.as_bytes().to_vec());
        let wanted = entries::bytes(&entries::numbered(known));
        let mut session = Session::new(harness);
        expect(
            &mut session,
            file.as_bytes(),
            vec![0; wanted.len()],
            delivery_length(1),
            0,
        )?;
        session.run(Command::Expect(Expected::Dictionary(wanted)))?;
    }
    Ok(())
}

/// Bytes that are no UTF-8.
const NO_UTF8: [&[u8]; 14] = [
    b"\x80",
    b"\xc3",
    b"\xc3a",
    b"\xc0\x80",
    b"\xc1\xbf",
    b"\xe0\x80\x80",
    b"\xe0\x9f\xbf",
    b"\xe2\x82",
    b"\xed\xa0\x80",
    b"\xed\xbf\xbf",
    b"\xf0\x8f\xbf\xbf",
    b"\xf4\x90\x80\x80",
    b"\xf5\x80\x80\x80",
    b"\xff",
];

/// Bytes that are no UTF-8 give 13, in a comment too.
pub fn no_utf8(harness: &mut Harness) -> Result<(), Failure> {
    for bytes in NO_UTF8 {
        for (before, behind) in [
            ("# ", ""),
            ("# ", "\n"),
            ("<a:> <a:> \"", "\" ."),
            ("<a:", "> <a:> <a:> ."),
        ] {
            let file = [before.as_bytes(), bytes, behind.as_bytes()].concat();
            expect(
                &mut Session::new(harness),
                &file,
                vec![0; 60],
                delivery_length(1),
                13,
            )?;
        }
    }
    Ok(())
}
