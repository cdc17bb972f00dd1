//! Our library's writer of N-Triples beside those of Apache Jena, of raptor and of serd, on the same lines; and by itself, beside one memcpy of
//! the lines and question 1. Each time is the least of some, since what runs beside a writing can only make it longer.

use crate::clock::{least, progress, ratio, timed};
use crate::contest::Outcome;
use crate::goods::{dictionary, facts};
use crate::laid::Laid;
use crate::numbers::{digits, grouped, rate, time};
use crate::scale::Scale;
use crate::tables::{head, row};
use crate::writers::Writer;
use families::{Capacities, Refusal, Store, Table, Triple};
use std::time::Duration;

/// The bytes that a line takes at most.
const LINE: usize = 256;

/// A literal that no dictionary has.
const NO_TEXT: u32 = 0xBFFF_FFFF;

/// The terms of a row.
const TERMS: usize = 3;

/// A table of kept facts with the dictionary of its texts, and its lines.
pub struct Lent {
    texts: usize,
    store: Store,
    dictionary: Vec<u8>,
    pub lines: Vec<u8>,
}

/// A store that keeps some rows.
fn keeping(rows: &[Triple]) -> Store {
    let mut store = Store::empty(Capacities { statements: 0, facts: 0, kept: rows.len() });
    store.kept[0] = rows.len() as u32;
    store.kept[1..].copy_from_slice(&rows.concat());
    store
}

impl Lent {
    /// So many facts about the goods of a dictionary of so many texts.
    pub fn new([rows, texts]: [usize; 2]) -> Outcome<Lent> {
        let mut lent = Lent { texts, store: keeping(&facts(rows, texts)), dictionary: dictionary(texts), lines: Vec::new() };
        let mut room = vec![0; rows * LINE];
        lent.lines = lent.write(&mut room).map_err(|refusal| format!("a table was {refusal}"))?.to_vec();
        Ok(lent)
    }

    /// Has our library write the rows.
    pub fn write<'a>(&self, output: &'a mut [u8]) -> Result<&'a [u8], Refusal> {
        self.store.write_ntriples(Table::Kept, &self.dictionary, output)
    }

    fn rows(&self) -> usize {
        self.store.kept[0] as usize
    }

    /// The lines as text.
    fn text(&self) -> &str {
        std::str::from_utf8(&self.lines).expect("UTF-8")
    }

    /// The time of writing so many times, which must give the same lines each time.
    fn time(&self, runs: usize) -> Outcome<Duration> {
        let mut output = vec![0; self.lines.len()];
        let mut times = Vec::new();
        for _ in 0..runs {
            let (time, written) = timed(|| self.write(&mut output).map(<[u8]>::len));
            times.push(time);
            if written != Ok(self.lines.len()) || output != self.lines {
                return Err("our library: not the same lines".to_string());
            }
        }
        Ok(least(times))
    }

    /// The time of questions 1 and 16: a table whose last object has no text, and an output of no byte.
    fn questions(&self, runs: usize) -> Duration {
        let mut store = self.store.clone();
        *store.kept.last_mut().expect("a row") = NO_TEXT;
        let ask = || assert_eq!(store.write_ntriples(Table::Kept, &self.dictionary, &mut []), Err(Refusal::NoText));
        least((0..runs).map(|_| timed(ask).0).collect())
    }

    /// The time of one memcpy of the lines.
    fn copy(&self, runs: usize) -> Duration {
        let mut output = vec![0; self.lines.len()];
        least((0..runs).map(|_| timed(|| output.copy_from_slice(&self.lines)).0).collect())
    }

    /// The name of a row of the tables.
    fn row_name(&self) -> String {
        [self.rows(), self.texts, self.lines.len()].map(grouped).join(" | ")
    }
}

/// The first columns of both tables.
const COLUMNS: [&str; 3] = ["rows", "texts of the dictionary", "bytes"];

/// What is measured of one table: our time, and those of the other writers.
struct Measured {
    lent: Lent,
    times: Vec<Duration>,
}

impl Measured {
    /// Has our library and the others write the lines of a table.
    fn of(scale: &Scale, size: [usize; 2], writers: &mut [Box<dyn Writer>]) -> Outcome<Measured> {
        let lent = Lent::new(size)?;
        let rows = grouped(lent.rows());
        progress(&format!("our library: writing {rows} rows"));
        let mut times = vec![lent.time(scale.readings)?];
        let laid = Laid::new("writing", lent.text(), scale.most_rows().div_ceil(lent.rows()))?;
        for writer in writers {
            progress(&format!("{}: {rows} rows", writer.name()));
            times.push(writer.time(scale, &laid, lent.text())?);
        }
        Ok(Measured { lent, times })
    }

    /// The row of bytes a second.
    fn rates(&self) -> String {
        let cells: String = self.times.iter().map(|&time| format!(" {} |", rate(self.lent.lines.len(), time))).collect();
        format!("| {} |{cells}\n", self.lent.row_name())
    }

    /// The row of times.
    fn times(&self) -> String {
        row(&self.lent.row_name(), &self.times)
    }
}

/// Our library beside the other writers.
pub fn contest(scale: &Scale, writers: &mut [Box<dyn Writer>]) -> Outcome<String> {
    let measured = scale.written.iter().map(|&size| Measured::of(scale, size, writers)).collect::<Outcome<Vec<Measured>>>()?;
    let mut names = vec!["our library"];
    names.extend(writers.iter().map(|writer| writer.name()));
    let mut out = head(&COLUMNS, &names);
    out.extend(measured.iter().map(Measured::rates));
    out += "\n";
    out += &head(&COLUMNS, &names);
    out.extend(measured.iter().map(Measured::times));
    Ok(out)
}

/// Our library by itself: the whole, questions 1 and 16 alone, and what is left without them, beside memcpy and for each row and each text.
pub fn by_size(scale: &Scale) -> Outcome<String> {
    progress("our library: writing by size");
    let names = ["writing", "questions 1 and 16", "the lines alone", "memcpy", "lines / memcpy", "a row", "a text above 3 memcpy"];
    let mut out = head(&COLUMNS, &names);
    for &size in &scale.written {
        let lent = Lent::new(size)?;
        let [whole, questions, copy] = [lent.time(scale.readings)?, lent.questions(scale.readings), lent.copy(scale.readings)];
        let lines = whole.saturating_sub(questions);
        let nanoseconds = |time: Duration, n: usize| format!("{} ns", digits(time.as_secs_f64() * 1e9 / n as f64, 2));
        let times = [whole, questions, lines, copy].map(time).join(" | ");
        let [row, text] = [nanoseconds(lines, lent.rows()), nanoseconds(lines.saturating_sub(3 * copy), TERMS * lent.rows())];
        out += &format!("| {} | {times} | {} | {row} | {text} |\n", lent.row_name(), digits(ratio(lines, copy), 2));
    }
    Ok(out)
}
