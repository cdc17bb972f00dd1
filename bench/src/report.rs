//! The report of a run: tables under titles, and a plot. They can be put into the documents.

use crate::clock::progress;
use crate::contest::Outcome;

/// What a run has measured.
#[derive(Default)]
pub struct Report {
    /// What stands above the tables.
    pub head: String,
    /// The tables, by title.
    pub sections: Vec<(&'static str, String)>,
    pub plot: Option<String>,
}

/// The document with the tables, the lines between which they stand, and the document with the plot.
const DOCUMENT: &str = "docs/BENCHMARKS.md";
const MARKS: [&str; 2] = ["<!-- tables: make bench-docs writes what follows -->\n", "<!-- end of tables -->\n"];
const PLOT: &str = "docs/benchmarks.svg";

/// What stands in front of each title.
const HEADING: &str = "\n### ";

impl Report {
    /// Tables alone.
    pub fn of(sections: Vec<(&'static str, String)>) -> Report {
        Report { sections, ..Report::default() }
    }

    /// Puts another report behind this one.
    pub fn go_on(&mut self, other: Report) {
        self.head += &other.head;
        self.sections.extend(other.sections);
        self.plot = self.plot.take().or(other.plot);
    }

    /// The tables as Markdown.
    pub fn text(&self) -> String {
        let sections: String = self.sections.iter().map(|(title, table)| section(title, table)).collect();
        format!("{}{sections}", self.head).trim_start().to_string()
    }

    /// Writes the tables to a file, and the plot to another.
    pub fn write(&self, tables: &str, plot: &str) -> Outcome<()> {
        write(tables, &self.text())?;
        self.plot.iter().try_for_each(|text| write(plot, text))
    }

    /// Puts the report into the documents: a whole one in the place of all that was there, and else each table in the place of the one with
    /// its title.
    pub fn write_documents(&self, is_whole: bool) -> Outcome<()> {
        let text = std::fs::read_to_string(DOCUMENT).map_err(|error| format!("{DOCUMENT}: {error}"))?;
        let (before, rest) = text.split_once(MARKS[0]).ok_or(format!("{DOCUMENT} has no line for the start of the tables"))?;
        let (tables, after) = rest.split_once(MARKS[1]).ok_or(format!("{DOCUMENT} has no line for the end of the tables"))?;
        let tables = if is_whole { self.text() } else { self.put_into(tables)? };
        write(DOCUMENT, &[before, MARKS[0], "\n", tables.trim(), "\n\n", MARKS[1], after].concat())?;
        self.plot.iter().try_for_each(|text| write(PLOT, text))
    }

    /// Some tables, with those of the report in the places of the ones with their titles.
    fn put_into(&self, tables: &str) -> Outcome<String> {
        let mut tables = tables.to_string();
        for (title, table) in &self.sections {
            let heading = format!("{HEADING}{title}\n");
            let (before, rest) = tables.split_once(&heading).ok_or(format!("{DOCUMENT} has no title {title}"))?;
            let behind = rest.find(HEADING).map_or("", |at| &rest[at..]);
            tables = [before, &section(title, table), behind].concat();
        }
        Ok(tables)
    }
}

/// A table below its title.
fn section(title: &str, table: &str) -> String {
    format!("{HEADING}{title}\n\n{}\n", table.trim_end())
}

/// Writes a file, and says so.
fn write(path: &str, text: &str) -> Outcome<()> {
    std::fs::write(path, text).map_err(|error| format!("{path}: {error}"))?;
    progress(&format!("written: {path}"));
    Ok(())
}
