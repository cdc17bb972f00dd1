//! Commands, and scripts of commands as text.
//!
//! One command a line; `#` starts a comment. Words are decimal or hexadecimal numbers, `vN` a
//! variable, `bN` a blank, `lN` a literal, and `W*N` is the word W repeated N times. BYTES are pairs of
//! hexadecimal digits, `-` for none, likewise.
//!
//!     empty S F K P             an empty store: words of each table, and support places
//!     nulls on                  slices of no element are lent as null pointers; or `nulls off`
//!     binding on                calls are made by the binding for Rust; or `binding off`
//!     lend TABLE WORDS          lends one table's words; TABLE also: supports
//!     lend dictionary BYTES     lends a dictionary
//!     add S P O                 and withdraw
//!     deliver BYTES
//!     ask WAY LENGTH FILL WORDS a question by the way `kept` or `rewritten`; an output of LENGTH
//!                               words, filled with rubbish made from FILL
//!     alternatives S P O LENGTH FILL
//!     list TABLE ORDER LENGTH FILL
//!     read LENGTH FILL BYTES    a file read with the dictionary into a delivery of LENGTH bytes
//!     write TABLE LENGTH FILL   a table written with the dictionary to an output of LENGTH bytes
//!     expect NUMBER             what the last call answered; also `expect result W W W W`,
//!                               `expect count N`, `expect output WORDS`, `expect TABLE WORDS`,
//!                               `expect delivery BYTES`, `expect dictionary BYTES`,
//!                               `expect lines BYTES`

use crate::model::terms::Triple;
use crate::random::Random;
use crate::store::Table;
use std::fmt;

/// A call of the library.
#[derive(Clone)]
pub enum Call {
    Add(Triple),
    Withdraw(Triple),
    Deliver(Vec<u8>),
    Ask(Way, Vec<u32>, Output),
    Alternatives(Triple, Output),
    List(Table, u32, Output),
    /// A file, and the delivery that it is read into.
    Read(Vec<u8>, Output),
    /// A table, and the output that it is written to.
    Write(Table, Output),
}

/// The two ways of asking a question.
#[derive(Clone, Copy, PartialEq, Eq)]
pub enum Way {
    Kept,
    Rewritten,
}

/// A lent output: its number of words, or of bytes for a delivery and for lines, and what makes the rubbish in it.
#[derive(Clone, Copy)]
pub struct Output {
    pub words: usize,
    pub fill: u32,
}

/// A line of a script.
#[derive(Clone)]
pub enum Command {
    Empty([usize; 4]),
    Lend(Table, Vec<u32>),
    LendSupports(Vec<u16>),
    LendDictionary(Vec<u8>),
    Nulls(bool),
    Binding(bool),
    Call(Call),
    Expect(Expected),
}

/// What a case knows from document 01 about the last call.
#[derive(Clone)]
pub enum Expected {
    Number(u32),
    Result([u32; 4]),
    Count(u32),
    Output(Vec<u32>),
    Table(Table, Vec<u32>),
    Supports(Vec<u16>),
    Delivery(Vec<u8>),
    Dictionary(Vec<u8>),
    Lines(Vec<u8>),
}

impl Output {
    /// The output as lent, full of rubbish.
    pub fn lent(self) -> Vec<u32> {
        let mut random = Random::new(u64::from(self.fill));
        (0..self.words).map(|_| random.word() | 1).collect()
    }

    /// The same of bytes.
    pub fn lent_bytes(self) -> Vec<u8> {
        let words = Output {
            words: self.words.div_ceil(4),
            ..self
        };
        let mut bytes: Vec<u8> = words
            .lent()
            .into_iter()
            .flat_map(u32::to_le_bytes)
            .collect();
        bytes.truncate(self.words);
        bytes
    }
}

impl Way {
    pub const BOTH: [Way; 2] = [Way::Kept, Way::Rewritten];

    pub fn name(self) -> &'static str {
        match self {
            Way::Kept => "kept",
            Way::Rewritten => "rewritten",
        }
    }
}

impl Call {
    /// What the counts call this kind of call.
    pub fn kind(&self) -> String {
        match self {
            Call::Add(_) => "add".into(),
            Call::Withdraw(_) => "withdraw".into(),
            Call::Deliver(_) => "deliver".into(),
            Call::Ask(way, ..) => format!("ask {}", way.name()),
            Call::Alternatives(..) => "alternatives".into(),
            Call::List(table, ..) => format!("list {}", table.name()),
            Call::Read(..) => "read".into(),
            Call::Write(table, _) => format!("write {}", table.name()),
        }
    }
}

/// A word as scripts write it.
fn show(word: u32) -> String {
    let number = word % (1 << 30);
    match word >> 30 {
        0 => number.to_string(),
        _ if number == 0 && word >> 30 != 3 => format!("{word:#x}"),
        1 => format!("b{number}"),
        2 => format!("l{number}"),
        _ => format!("v{number}"),
    }
}

/// Words as scripts write them, runs of one word shortened.
fn show_all(words: &[u32]) -> String {
    let mut text = String::new();
    let runs = words.chunk_by(|a, b| a == b);
    for run in runs {
        let shown = show(run[0]);
        if run.len() > 3 {
            text += &format!(" {shown}*{}", run.len());
        } else {
            text += &format!(" {shown}").repeat(run.len());
        }
    }
    text
}

/// Bytes as scripts write them, runs of one byte shortened.
fn show_bytes(bytes: &[u8]) -> String {
    if bytes.is_empty() {
        return "-".into();
    }
    let mut text = String::new();
    for run in bytes.chunk_by(|a, b| a == b) {
        let shown = format!("{:02x}", run[0]);
        match run.len() {
            0..8 => text += &shown.repeat(run.len()),
            length => text += &format!(" {shown}*{length} "),
        }
    }
    text.trim().to_string()
}

/// A switch as scripts write it.
fn on_or_off(on: bool) -> &'static str {
    match on {
        true => "on",
        false => "off",
    }
}

fn widen(words: &[u16]) -> Vec<u32> {
    words.iter().map(|w| u32::from(*w)).collect()
}

impl fmt::Display for Output {
    fn fmt(&self, f: &mut fmt::Formatter<'_>) -> fmt::Result {
        write!(f, "{} {}", self.words, self.fill)
    }
}

impl fmt::Display for Call {
    fn fmt(&self, f: &mut fmt::Formatter<'_>) -> fmt::Result {
        match self {
            Call::Add(triple) => write!(f, "add{}", show_all(triple)),
            Call::Withdraw(triple) => write!(f, "withdraw{}", show_all(triple)),
            Call::Deliver(bytes) => write!(f, "deliver {}", show_bytes(bytes)),
            Call::Ask(way, words, output) => {
                write!(f, "ask {} {output}{}", way.name(), show_all(words))
            }
            Call::Alternatives(atom, output) => {
                write!(f, "alternatives{} {output}", show_all(atom))
            }
            Call::List(table, order, output) => {
                write!(f, "list {} {order} {output}", table.name())
            }
            Call::Read(file, output) => write!(f, "read {output} {}", show_bytes(file)),
            Call::Write(table, output) => write!(f, "write {} {output}", table.name()),
        }
    }
}

impl fmt::Display for Command {
    fn fmt(&self, f: &mut fmt::Formatter<'_>) -> fmt::Result {
        match self {
            Command::Empty([s, k, c, p]) => write!(f, "empty {s} {k} {c} {p}"),
            Command::Lend(table, words) => {
                write!(f, "lend {}{}", table.name(), show_all(words))
            }
            Command::LendSupports(words) => {
                write!(f, "lend supports{}", show_all(&widen(words)))
            }
            Command::LendDictionary(bytes) => write!(f, "lend dictionary {}", show_bytes(bytes)),
            Command::Nulls(on) => write!(f, "nulls {}", on_or_off(*on)),
            Command::Binding(on) => write!(f, "binding {}", on_or_off(*on)),
            Command::Call(call) => call.fmt(f),
            Command::Expect(expected) => write!(f, "expect {expected}"),
        }
    }
}

impl fmt::Display for Expected {
    fn fmt(&self, f: &mut fmt::Formatter<'_>) -> fmt::Result {
        match self {
            Expected::Number(number) => write!(f, "{number}"),
            Expected::Result(result) => write!(f, "result{}", show_all(result)),
            Expected::Count(count) => write!(f, "count {count}"),
            Expected::Output(words) => write!(f, "output{}", show_all(words)),
            Expected::Table(table, words) => write!(f, "{}{}", table.name(), show_all(words)),
            Expected::Supports(words) => write!(f, "supports{}", show_all(&widen(words))),
            Expected::Delivery(bytes) => write!(f, "delivery {}", show_bytes(bytes)),
            Expected::Dictionary(bytes) => write!(f, "dictionary {}", show_bytes(bytes)),
            Expected::Lines(bytes) => write!(f, "lines {}", show_bytes(bytes)),
        }
    }
}

/// A word from text.
fn parse_word(text: &str) -> Option<u32> {
    let kind = match text.as_bytes().first()? {
        b'b' => 1,
        b'l' => 2,
        b'v' => 3,
        _ => {
            return match text.strip_prefix("0x") {
                Some(digits) => u32::from_str_radix(digits, 16).ok(),
                None => text.parse().ok(),
            }
        }
    };
    let number: u32 = text[1..].parse().ok()?;
    (number < 1 << 30).then_some((kind << 30) | number)
}

/// Words from text, runs written out.
fn parse_words(texts: &[&str]) -> Option<Vec<u32>> {
    let mut words = Vec::new();
    for text in texts {
        let (word, times) = match text.split_once('*') {
            Some((word, times)) => (word, times.parse().ok()?),
            None => (*text, 1),
        };
        words.extend(std::iter::repeat_n(parse_word(word)?, times));
    }
    Some(words)
}

fn parse_halves(texts: &[&str]) -> Option<Vec<u16>> {
    let words = parse_words(texts)?;
    words.into_iter().map(|w| u16::try_from(w).ok()).collect()
}

fn parse_triple(texts: &[&str]) -> Option<Triple> {
    parse_words(texts)?.try_into().ok()
}

fn parse_table(text: &str) -> Option<Table> {
    Table::ALL.into_iter().find(|t| t.name() == text)
}

fn parse_output(words: &str, fill: &str) -> Option<Output> {
    Some(Output {
        words: words.parse().ok()?,
        fill: fill.parse().ok()?,
    })
}

/// Bytes from text, runs written out.
fn parse_bytes(texts: &[&str]) -> Option<Vec<u8>> {
    if texts == ["-"] {
        return Some(Vec::new());
    }
    let mut bytes = Vec::new();
    for text in texts {
        let (digits, times) = match text.split_once('*') {
            Some((digits, times)) => (digits, times.parse().ok()?),
            None => (*text, 1),
        };
        let pairs = digits.as_bytes().chunks(2);
        let part: Option<Vec<u8>> = pairs
            .map(|pair| u8::from_str_radix(std::str::from_utf8(pair).ok()?, 16).ok())
            .collect();
        bytes.extend(part?.repeat(times));
    }
    Some(bytes)
}

fn parse_on(text: &str) -> Option<bool> {
    [true, false].into_iter().find(|on| on_or_off(*on) == text)
}

fn parse_way(text: &str) -> Option<Way> {
    Way::BOTH.into_iter().find(|w| w.name() == text)
}

fn parse_expected(texts: &[&str]) -> Option<Expected> {
    match texts {
        ["result", words @ ..] => Some(Expected::Result(parse_words(words)?.try_into().ok()?)),
        ["count", count] => Some(Expected::Count(count.parse().ok()?)),
        ["output", words @ ..] => Some(Expected::Output(parse_words(words)?)),
        ["supports", words @ ..] => Some(Expected::Supports(parse_halves(words)?)),
        ["delivery", bytes @ ..] => Some(Expected::Delivery(parse_bytes(bytes)?)),
        ["dictionary", bytes @ ..] => Some(Expected::Dictionary(parse_bytes(bytes)?)),
        ["lines", bytes @ ..] => Some(Expected::Lines(parse_bytes(bytes)?)),
        [number] => Some(Expected::Number(number.parse().ok()?)),
        [table, words @ ..] => Some(Expected::Table(parse_table(table)?, parse_words(words)?)),
        [] => None,
    }
}

/// One command from a line's words.
fn parse_command(texts: &[&str]) -> Option<Command> {
    let call = match texts {
        ["empty", s, f, k, p] => {
            return Some(Command::Empty([
                s.parse().ok()?,
                f.parse().ok()?,
                k.parse().ok()?,
                p.parse().ok()?,
            ]))
        }
        ["lend", "supports", words @ ..] => {
            return Some(Command::LendSupports(parse_halves(words)?))
        }
        ["lend", "dictionary", bytes @ ..] => {
            return Some(Command::LendDictionary(parse_bytes(bytes)?))
        }
        ["lend", table, words @ ..] => {
            return Some(Command::Lend(parse_table(table)?, parse_words(words)?))
        }
        ["nulls", on] => return Some(Command::Nulls(parse_on(on)?)),
        ["binding", on] => return Some(Command::Binding(parse_on(on)?)),
        ["expect", rest @ ..] => return Some(Command::Expect(parse_expected(rest)?)),
        ["add", triple @ ..] => Call::Add(parse_triple(triple)?),
        ["withdraw", triple @ ..] => Call::Withdraw(parse_triple(triple)?),
        ["deliver", bytes @ ..] => Call::Deliver(parse_bytes(bytes)?),
        ["ask", way, words, fill, question @ ..] => Call::Ask(
            parse_way(way)?,
            parse_words(question)?,
            parse_output(words, fill)?,
        ),
        ["alternatives", s, p, o, words, fill] => {
            Call::Alternatives(parse_triple(&[s, p, o])?, parse_output(words, fill)?)
        }
        ["list", table, order, words, fill] => Call::List(
            parse_table(table)?,
            parse_word(order)?,
            parse_output(words, fill)?,
        ),
        ["read", bytes, fill, file @ ..] => {
            Call::Read(parse_bytes(file)?, parse_output(bytes, fill)?)
        }
        ["write", table, bytes, fill] => {
            Call::Write(parse_table(table)?, parse_output(bytes, fill)?)
        }
        _ => return None,
    };
    Some(Command::Call(call))
}

/// The commands of a script, or the first line that is none.
pub fn parse(text: &str) -> Result<Vec<Command>, String> {
    let mut commands = Vec::new();
    for (i, line) in text.lines().enumerate() {
        let code = line.split('#').next().unwrap_or("");
        let words: Vec<&str> = code.split_whitespace().collect();
        if !words.is_empty() {
            let command = parse_command(&words);
            commands.push(command.ok_or_else(|| format!("line {}: {line}", i + 1))?);
        }
    }
    Ok(commands)
}
