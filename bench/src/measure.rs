//! The workload, put to every contestant. The kept facts and the rows of each question must be those of our library, the first.

use crate::clock::{median, progress};
use crate::contest::{Change, Contestant, Outcome, Rows, Way};
use crate::scale::Scale;
use families::Triple;
use std::time::Duration;
use workload::{spread, Mix};

/// The two ways, in the order of the figures.
pub const WAYS: [Way; 2] = [Way::Kept, Way::Rewritten];

/// The places of the three kinds of updates.
pub const FACTS: usize = 0;
pub const DELIVERED: usize = 1;
pub const STATEMENTS: usize = 2;

/// What is measured of one contestant on one store.
pub struct Figures {
    pub load: Duration,
    /// For each question, by both ways.
    pub questions: Vec<[Duration; 2]>,
    /// Added and withdrawn: facts one by one, facts in one go, statements one by one.
    pub updates: [[Duration; 2]; 3],
}

/// What is measured on one store, with its kept rows and the rows of each question.
pub struct Contest {
    pub facts: usize,
    pub kept: usize,
    pub rows: Vec<usize>,
    pub figures: Vec<Figures>,
}

/// A store and what it is asked.
pub struct Task {
    pub statements: Vec<Triple>,
    pub facts: Vec<Triple>,
    pub questions: Vec<(&'static str, Vec<u32>)>,
    pub changed: Changed,
}

/// How many facts are withdrawn and added one by one, how many in one go, and how many statements one by one.
pub struct Changed {
    pub facts: usize,
    pub delivered: usize,
    pub statements: usize,
}

/// What our library gives, for the others to be compared with.
struct Expected {
    kept: Rows,
    answers: Vec<Rows>,
    /// The kept facts while what is changed is withdrawn, for each of the three kinds of changes.
    without: Vec<Rows>,
}

/// The statements of every store but those of hub.rs and steps.rs.
pub fn statements() -> Vec<Triple> {
    workload::statements(200)
}

impl Task {
    /// A store of so many facts, which come in no order, and all questions.
    pub fn new(n: usize, mix: Mix, changed: Changed) -> Task {
        let statements = statements();
        let facts = workload::shuffled(workload::facts(n, statements.len(), mix, 7), 11);
        let questions = workload::questions(&facts);
        Task { statements, facts, questions, changed }
    }

    /// Puts the task to each contestant in turn.
    pub fn run(&self, scale: &Scale, contestants: &mut [Box<dyn Contestant>]) -> Outcome<Contest> {
        let expected = self.expected(contestants[0].as_mut())?;
        let figures = contestants.iter_mut().map(|c| self.figures(scale, &expected, c.as_mut())).collect::<Outcome<_>>()?;
        let rows = expected.answers.iter().map(Vec::len).collect();
        Ok(Contest { facts: self.facts.len(), kept: expected.kept.len(), rows, figures })
    }

    /// What is withdrawn and added: facts one by one, facts in one go, statements one by one.
    fn changes(&self) -> [Vec<Triple>; 3] {
        let Changed { facts, delivered, statements } = self.changed;
        [spread(&self.facts, facts), spread(&self.facts, delivered), spread(&self.statements, statements)]
    }

    /// What our library gives.
    fn expected(&self, ours: &mut dyn Contestant) -> Outcome<Expected> {
        ours.load(&self.statements, &self.facts)?;
        let kept = ours.kept()?;
        let answers = self.questions.iter().map(|(_, q)| ours.rows(Way::Kept, q)).collect::<Outcome<_>>()?;
        let mut without = Vec::new();
        for triples in &self.changes() {
            ours.deliver(Change::Withdraw, triples)?;
            without.push(ours.kept()?);
            ours.deliver(Change::Add, triples)?;
        }
        Ok(Expected { kept, answers, without })
    }

    /// Measures one contestant.
    fn figures(&self, scale: &Scale, expected: &Expected, contestant: &mut dyn Contestant) -> Outcome<Figures> {
        let name = contestant.name();
        let step = |what: &str| progress(&format!("{name}: {} facts: {what}", self.facts.len()));
        step("load and saturate");
        let loads = (0..scale.rounds).map(|_| contestant.load(&self.statements, &self.facts)).collect::<Outcome<_>>()?;
        same(name, "the kept facts", &expected.kept, contestant.kept()?)?;
        step("questions");
        let mut questions = Vec::new();
        for ((what, q), rows) in self.questions.iter().zip(&expected.answers) {
            let mut times = [Duration::ZERO; 2];
            for (time, way) in times.iter_mut().zip(WAYS) {
                same(name, what, rows, contestant.rows(way, q)?)?;
                *time = median(contestant.times(way, q, scale.runs)?);
            }
            questions.push(times);
        }
        step("updates");
        let mut updates = [[Duration::ZERO; 2]; 3];
        for (i, triples) in self.changes().iter().enumerate().filter(|(_, triples)| !triples.is_empty()) {
            updates[i] = changes(scale, contestant, triples, &expected.without[i], i == DELIVERED)?;
        }
        same(name, "the kept facts after all updates", &expected.kept, contestant.kept()?)?;
        Ok(Figures { load: median(loads), questions, updates })
    }
}

/// Withdraws triples and adds them again, so many times, one by one or in one go: the medians, added first. The kept facts in between
/// are compared.
fn changes(scale: &Scale, contestant: &mut dyn Contestant, triples: &[Triple], without: &Rows, in_one_go: bool) -> Outcome<[Duration; 2]> {
    let mut times = [Vec::new(), Vec::new()];
    for round in 0..scale.rounds {
        times[1].push(update(contestant, Change::Withdraw, triples, in_one_go)?);
        if round == 0 {
            same(contestant.name(), "the kept facts after withdrawals", without, contestant.kept()?)?;
        }
        times[0].push(update(contestant, Change::Add, triples, in_one_go)?);
    }
    Ok(times.map(median))
}

/// Updates one by one or in one go.
fn update(contestant: &mut dyn Contestant, change: Change, triples: &[Triple], in_one_go: bool) -> Outcome<Duration> {
    if in_one_go {
        contestant.deliver(change, triples)
    } else {
        contestant.update(change, triples)
    }
}

/// Compares rows with those of our library, as sets; kept facts may come without supports.
fn same(name: &str, what: &str, ours: &Rows, mut theirs: Rows) -> Outcome<()> {
    theirs.sort();
    let equal = |a: &Vec<u32>, b: &Vec<u32>| a == b || (a.len() == 4 && a[..3] == b[..]);
    if ours.len() == theirs.len() && ours.iter().zip(&theirs).all(|(a, b)| equal(a, b)) {
        return Ok(());
    }
    let differing = ours.iter().zip(&theirs).find(|(a, b)| !equal(a, b));
    let counts = format!("{} rows, our library has {}", theirs.len(), ours.len());
    Err(format!("{name}: {what}: {counts}; the first that differs, ours and theirs: {differing:?}"))
}
