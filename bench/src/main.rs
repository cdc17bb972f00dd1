//! Measures the exported library beside SWI-Prolog, PostgreSQL and Apache Jena, in one run on one workload, its reader of N-Triples beside
//! those of Jena and of raptor, its writer beside those of Jena, of raptor and of serd, and the library by itself. Writes target/bench/report.md and target/bench/plot.svg; with --docs also the
//! tables in docs/BENCHMARKS.md and docs/benchmarks.svg. The other arguments are the peers to run (prolog, postgres, jena, rapper, serdi), --quick
//! for a small workload that shows only that all works, and --only=PART for one part of the tables (stores, alone, reading, writing, stack).

mod alone;
mod clock;
mod contest;
mod goods;
mod hub;
mod jena;
mod laid;
mod measure;
mod numbers;
mod ours;
mod plot;
mod postgres;
mod prolog;
mod readers;
mod reading;
mod report;
mod rewriting;
mod scale;
mod stack;
mod steps;
mod tables;
mod thresholds;
mod writers;
mod writing;

use alone::Alone;
use clock::{milliseconds, progress};
use contest::{Contestant, Outcome};
use measure::{Changed, Contest, Task};
use plot::Panel;
use readers::Reader;
use report::Report;
use scale::Scale;
use workload::GROWING;
use writers::Writer;

/// The peers, by name.
const PEERS: [&str; 5] = ["prolog", "postgres", "jena", "rapper", "serdi"];

/// Starts the store of a peer, if it has one.
fn start(peer: &str) -> Outcome<Option<Box<dyn Contestant>>> {
    progress(&format!("starting {peer}"));
    match peer {
        "prolog" => prolog::Prolog::start().map(Some),
        "postgres" => postgres::Postgres::start().map(Some),
        "jena" => jena::Jena::start().map(Some),
        _ => Ok(None),
    }
}

/// What a growing store is asked and changed: one question of one atom, one of two and one of three.
fn growing(scale: &Scale, facts: usize) -> Task {
    let changed = Changed { facts: scale.changed_growing, delivered: 0, statements: 0 };
    let mut task = Task::new(facts, GROWING, changed);
    task.questions = [1, 4, 7].map(|i| task.questions[i].clone()).to_vec();
    task
}

/// Our library beside the stores of peers.
fn stores(scale: &Scale, peers: &[String]) -> Outcome<Report> {
    let mut contestants: Vec<Box<dyn Contestant>> = vec![Box::new(ours::Ours::new())];
    for peer in peers {
        contestants.extend(start(peer)?);
    }
    let names: Vec<&str> = contestants.iter().map(|c| c.name()).collect();
    let [facts, statements] = scale.changed;
    let task = Task::new(scale.facts, workload::DENSE, Changed { facts, delivered: facts, statements });
    let alone = Alone::measure(scale, &task.statements, &task.facts);
    let contest = task.run(scale, &mut contestants)?;
    let tasks: Vec<Task> = scale.sizes.iter().map(|&n| growing(scale, n)).collect();
    let contests = tasks.iter().map(|task| task.run(scale, &mut contestants)).collect::<Outcome<Vec<Contest>>>()?;
    let measures = tables::measures(&tasks[0].questions, scale.changed_growing);
    let sections = vec![
        ("Load and saturate", tables::loads(&names, &contest, &alone)),
        ("Questions", tables::questions(&names, &task.questions, &contest, &alone)),
        ("Updates", tables::updates(&contestants, &contest, scale.changed)),
        ("Growth", tables::growth(&names, &measures, &contests)),
        ("Saturation thresholds", thresholds::thresholds(&names, &task.questions, &contest, &alone, scale.changed)),
        ("The cost of upkeep", thresholds::upkeep(&contest.figures[0], &alone, scale.changed)),
    ];
    let [statements, facts, kept] = [task.statements.len(), contest.facts, contest.kept].map(numbers::grouped);
    let head = format!("The store for questions and updates has {statements} statements, {facts} facts and {kept} kept rows.\n");
    let panel = |(title, pick): &(String, _)| Panel { title: title.clone(), lines: lines(&contests, pick) };
    let plot = plot::plot(&names, &scale.sizes, &measures.iter().map(panel).collect::<Vec<_>>());
    Ok(Report { head, sections, plot: Some(plot) })
}

/// For each contestant the milliseconds of a measure at each size.
fn lines(contests: &[Contest], pick: &tables::Pick) -> Vec<Vec<f64>> {
    let contestants = 0..contests[0].figures.len();
    contestants.map(|i| contests.iter().map(|contest| milliseconds(pick(&contest.figures[i]))).collect()).collect()
}

/// Our library by itself.
fn alone(scale: &Scale) -> Outcome<Report> {
    let statements = measure::statements();
    Ok(Report::of(vec![
        ("Our library alone: questions by size", alone::questions_by_size(scale, &statements, GROWING)?),
        ("Our library alone: one thing with half of the facts, one object of half of the facts, one thing and one object with many properties, and facts that share two by two", hub::hubs(scale)?),
        ("Our library alone: subclasses in one chain or one loop", steps::by_statements(scale)?),
        ("Our library alone: question 1", alone::first_questions(scale, &statements, GROWING)),
        ("Our library alone: updates by size", alone::updates_by_size(scale, &statements, GROWING)),
        ("Our library alone: listings", alone::listings(scale, &statements, GROWING)),
        ("Our library alone: deliveries", alone::deliveries(scale, &statements)),
    ]))
}

/// Our library's reader of N-Triples beside those of peers, and by itself.
fn reading(scale: &Scale, peers: &[String]) -> Outcome<Report> {
    let mut readers: Vec<Box<dyn Reader>> = Vec::new();
    for peer in peers {
        readers.extend(readers::start(peer)?);
    }
    Ok(Report::of(vec![
        ("Reading N-Triples", reading::contest(scale, &mut readers)?),
        ("Our library alone: reading N-Triples", reading::by_size(scale)?),
    ]))
}

/// Our library's writer of N-Triples beside those of peers, and by itself.
fn writing(scale: &Scale, peers: &[String]) -> Outcome<Report> {
    let mut writers: Vec<Box<dyn Writer>> = Vec::new();
    for peer in peers {
        writers.extend(writers::start(peer)?);
    }
    Ok(Report::of(vec![
        ("Writing N-Triples", writing::contest(scale, &mut writers)?),
        ("Our library alone: writing N-Triples", writing::by_size(scale)?),
    ]))
}

/// The stack that calls of our library take.
fn stack(scale: &Scale) -> Outcome<Report> {
    Ok(Report::of(vec![("Our library alone: stack", stack::calls(scale, &measure::statements())?)]))
}

/// A part of the tables, measured with the peers named.
type Part = fn(&Scale, &[String]) -> Outcome<Report>;

/// The parts of the tables, by name.
const PARTS: [(&str, Part); 5] =
    [("stores", stores), ("alone", |scale, _| alone(scale)), ("reading", reading), ("writing", writing), ("stack", |scale, _| stack(scale))];

/// What the command line asks for.
#[derive(Default)]
struct Asked {
    quick: bool,
    docs: bool,
    only: Option<Part>,
    peers: Vec<String>,
}

impl Asked {
    fn of(arguments: impl Iterator<Item = String>) -> Outcome<Asked> {
        let mut asked = Asked::default();
        for argument in arguments {
            match argument.as_str() {
                "--quick" => asked.quick = true,
                "--docs" => asked.docs = true,
                peer if PEERS.contains(&peer) => asked.peers.push(argument),
                other => asked.only = Some(only(other)?),
            }
        }
        Ok(asked)
    }
}

/// The part that an argument names behind --only.
fn only(argument: &str) -> Outcome<Part> {
    let named = argument.strip_prefix("--only=").and_then(|name| PARTS.iter().find(|(part, _)| *part == name));
    let parts = PARTS.map(|(name, _)| format!("--only={name}"));
    let known = || format!("no such argument: {argument} (--quick, --docs, {}, {})", parts.join(", "), PEERS.join(", "));
    named.map(|(_, part)| *part).ok_or_else(known)
}

/// Measures and writes.
fn run(asked: &Asked) -> Outcome<()> {
    let scale = if asked.quick { Scale::quick() } else { Scale::full() };
    let mut report = Report::default();
    for part in asked.only.map_or(PARTS.map(|(_, part)| part).to_vec(), |part| vec![part]) {
        report.go_on(part(&scale, &asked.peers)?);
    }
    report.write("target/bench/report.md", "target/bench/plot.svg")?;
    if asked.docs {
        report.write_documents(asked.only.is_none())?;
    }
    println!("{}", report.text());
    Ok(())
}

fn main() {
    if let Err(words) = Asked::of(std::env::args().skip(1)).and_then(|asked| run(&asked)) {
        eprintln!("bench: {words}");
        std::process::exit(1);
    }
}
