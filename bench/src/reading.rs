//! Our library's reader of N-Triples beside those of Apache Jena and of raptor, on the same files; and by itself, as files and dictionaries
//! grow. Each time is the least of some, since what runs beside a reading can only make it longer.

use crate::clock::{least, progress, timed};
use crate::contest::Outcome;
use crate::goods::{dictionary, files, File, TEXTS};
use crate::laid::Laid;
use crate::numbers::{digits, grouped, rate, time};
use crate::ours::DELIVERY_BYTES;
use crate::readers::{Found, Reader};
use crate::scale::Scale;
use crate::tables::{head, row};
use std::collections::HashSet;
use std::time::Duration;

/// Where the facts of a delivery begin that adds no statement.
const FACTS: usize = 8;

/// The bytes of a triple in a delivery, and of its terms.
const TRIPLE: usize = 12;
const TERM: usize = 4;

/// The bytes of an entry of a dictionary in front of its text: its term, and the text's length.
const HEADER: usize = 12;

/// What our library made of a file: its triples and their distinct terms, and the entries of the dictionary then.
struct Read {
    triples: usize,
    terms: usize,
    entries: usize,
}

impl Read {
    fn of(delivery: &[u8], dictionary: &[u8]) -> Read {
        let facts = &delivery[FACTS..delivery.len() - 2];
        let terms: HashSet<&[u8]> = facts.chunks(TERM).collect();
        Read { triples: facts.len() / TRIPLE, terms: terms.len(), entries: entries(dictionary) }
    }
}

/// How many entries a dictionary has.
fn entries(dictionary: &[u8]) -> usize {
    let mut rest = dictionary;
    let mut count = 0;
    while rest.iter().take(TERM).any(|&byte| byte != 0) {
        let length = u64::from_le_bytes(rest[TERM..HEADER].try_into().expect("eight bytes"));
        rest = &rest[HEADER + length as usize..];
        count += 1;
    }
    count
}

/// Has our library read a file so many times with a dictionary, as it was before each time: the least time, and what came of the last.
fn ours(file: &str, dictionary: &[u8], runs: usize) -> Outcome<(Duration, Read)> {
    let mut lent = dictionary.to_vec();
    let mut delivery = vec![0; DELIVERY_BYTES];
    let mut times = Vec::new();
    let mut length = 0;
    for _ in 0..runs {
        lent.copy_from_slice(dictionary);
        let (time, answer) = timed(|| families::read_ntriples(file.as_bytes(), &mut lent, &mut delivery));
        length = answer.map_err(|refusal| format!("a file was {refusal}"))?;
        times.push(time);
    }
    Ok((least(times), Read::of(&delivery[..length], &lent)))
}

/// What is measured of one file: with each dictionary, our time and what came of it; and the time of each other reader.
struct Measured {
    file: File,
    ours: Vec<(Duration, Read)>,
    others: Vec<Duration>,
}

impl Measured {
    /// Has our library and the others read a file.
    fn of(scale: &Scale, file: File, dictionaries: &[Vec<u8>], readers: &mut [Box<dyn Reader>]) -> Outcome<Measured> {
        progress(&format!("our library: reading: {}", file.name));
        let ours = dictionaries.iter().map(|dictionary| ours(&file.text, dictionary, scale.readings)).collect::<Outcome<Vec<_>>>()?;
        let Read { triples, terms, .. } = ours[0].1;
        if ours.iter().any(|(_, read)| read.triples != file.text.lines().count() || read.terms != terms) {
            return Err(format!("our library: {}: not all triples, or other terms with another dictionary", file.name));
        }
        let laid = Laid::new("reading", &file.text, scale.copies)?;
        let found = Found { triples, terms };
        let mut others = Vec::new();
        for reader in readers {
            progress(&format!("{}: {}", reader.name(), file.name));
            others.push(reader.time(scale, &laid, &found)?);
        }
        Ok(Measured { file, ours, others })
    }

    /// The row of bytes a second.
    fn rates(&self) -> String {
        let Read { triples, terms, .. } = self.ours[0].1;
        let bytes = self.file.text.len();
        let times = self.ours.iter().map(|(time, _)| time).chain(&self.others);
        let cells: String = times.map(|&time| format!(" {} |", rate(bytes, time))).collect();
        format!("| {} | {} | {} | {} |{cells}\n", self.file.name, grouped(triples), grouped(bytes), grouped(terms))
    }

    /// The rows of times, one for each dictionary.
    fn times(&self) -> String {
        let of = |(texts, (ours, read)): (&usize, &(Duration, Read))| {
            let name = format!("{} | {} | {}", self.file.name, grouped(*texts), grouped(read.entries - texts));
            row(&name, &[&[*ours], &self.others[..]].concat())
        };
        TEXTS.iter().zip(&self.ours).map(of).collect()
    }
}

/// Our library beside the other readers.
pub fn contest(scale: &Scale, readers: &mut [Box<dyn Reader>]) -> Outcome<String> {
    let dictionaries = TEXTS.map(dictionary);
    let measured = files(scale.most_lines()).into_iter().map(|file| Measured::of(scale, file, &dictionaries, readers));
    let measured = measured.collect::<Outcome<Vec<Measured>>>()?;
    let others: Vec<&str> = readers.iter().map(|reader| reader.name()).collect();
    let with = TEXTS.map(|n| format!("our library, {} texts", grouped(n)));
    let mut out = head(&["file", "triples", "bytes", "distinct terms"], &[&with.each_ref().map(String::as_str), &others[..]].concat());
    out.extend(measured.iter().map(Measured::rates));
    out += "\n";
    out += &head(&["file", "texts of the dictionary", "new texts", "our library"], &others);
    out.extend(measured.iter().map(Measured::times));
    Ok(out)
}

/// Our library by itself on files of several lengths about new goods, with each dictionary. The last column has what a line takes: the time
/// of the longest file less that of an empty one, which has question 1 alone, divided by the lines.
pub fn by_size(scale: &Scale) -> Outcome<String> {
    progress("our library: reading by size");
    let [_, file, _] = files(scale.most_lines());
    let lengths: Vec<String> = scale.lines.iter().map(|&n| format!("{} lines", grouped(n))).collect();
    let columns: Vec<&str> = lengths.iter().map(String::as_str).chain(["a line"]).collect();
    let mut out = head(&["texts of the dictionary", "its bytes", "no lines"], &columns);
    for n in TEXTS {
        out += &by_lines(scale, &file, n)?;
    }
    Ok(out)
}

/// The row of a dictionary of n texts.
fn by_lines(scale: &Scale, file: &File, n: usize) -> Outcome<String> {
    let dictionary = dictionary(n);
    let measured = |lines: usize| ours(file.first(lines), &dictionary, scale.readings).map(|(time, _)| time);
    let empty = measured(0)?;
    let times = scale.lines.iter().map(|&lines| measured(lines)).collect::<Outcome<Vec<Duration>>>()?;
    let line = times[times.len() - 1].saturating_sub(empty).as_secs_f64() * 1e6 / scale.most_lines() as f64;
    let cells: String = times.iter().map(|&measured| format!(" {} |", time(measured))).collect();
    Ok(format!("| {} | {} | {} |{cells} {} µs |\n", grouped(n), grouped(dictionary.len()), time(empty), digits(line, 2)))
}
