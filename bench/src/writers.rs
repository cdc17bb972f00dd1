//! Writers of N-Triples in other programs: Apache Jena's (peers/jena), raptor's and serd's.

use crate::clock::{least, timed};
use crate::contest::Outcome;
use crate::laid::Laid;
use crate::scale::Scale;
use peers::Rewriter;
use std::path::Path;
use std::time::Duration;

/// A writer of N-Triples in another program.
pub trait Writer {
    /// What it does, in the tables.
    fn name(&self) -> &'static str;

    /// Writes what a file has, again and again: the least time of one writing. It must write the file's bytes, lines in any order.
    fn time(&mut self, scale: &Scale, laid: &Laid, text: &str) -> Outcome<Duration>;
}

/// Starts the writers of a peer, which may have none.
pub fn start(peer: &str) -> Outcome<Vec<Box<dyn Writer>>> {
    Ok(match peer {
        "jena" => vec![Box::new(Jena { client: peers::Jena::start()? })],
        "rapper" => vec![Box::new(Rewriter::Rapper)],
        "serdi" => vec![Box::new(Rewriter::Serdi)],
        _ => vec![],
    })
}

/// Jena, which writes from a graph in memory.
struct Jena {
    client: peers::Jena,
}

impl Writer for Jena {
    fn name(&self) -> &'static str {
        "Jena, from a graph"
    }

    fn time(&mut self, scale: &Scale, laid: &Laid, text: &str) -> Outcome<Duration> {
        let mut all = Vec::new();
        while all.iter().sum::<Duration>() < scale.read_again {
            let (bytes, times) = self.client.write_times(&laid.file, scale.readings)?;
            if bytes != text.len() {
                return Err(format!("{}: {bytes} bytes, by our library {}", self.name(), text.len()));
            }
            all.extend(times);
        }
        Ok(least(all))
    }
}

/// The least time of so many runs of a program on a file.
fn run(program: Rewriter, runs: usize, file: &Path) -> Outcome<Duration> {
    let times = (0..runs).map(|_| timed(|| program.write(file))).map(|(time, written)| written.map(|()| time));
    Ok(least(times.collect::<Outcome<_>>()?))
}

/// Programs that read the file and write it, to where nothing is kept.
impl Writer for Rewriter {
    fn name(&self) -> &'static str {
        match self {
            Rewriter::Rapper => "rapper, read and written",
            Rewriter::Serdi => "serdi, read and written",
        }
    }

    fn time(&mut self, scale: &Scale, laid: &Laid, text: &str) -> Outcome<Duration> {
        if self.text(&laid.file)? != text.as_bytes() {
            return Err(format!("{}: not the bytes that our library writes", Writer::name(self)));
        }
        Ok(laid.once(run(*self, scale.rounds, &laid.over)?, run(*self, scale.rounds, &laid.empty)?))
    }
}
