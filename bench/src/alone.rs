//! Our library by itself: ways of loading, questions as the store grows, and question 1, lone updates, listings and deliveries beside one
//! memcpy of the store's tables or question 1.

use crate::clock::{median, progress, ratio, repeated, timed};
use crate::contest::{Contestant, Outcome, Way};
use crate::measure::WAYS;
use crate::numbers::{digits, grouped, time, times};
use crate::ours::{ask, lent_facts, Ours};
use crate::scale::Scale;
use families::{Capacities, Order, Refusal, Store, Table, Triple, Updated};
use std::time::Duration;
use workload::{delivery, question, spread, variable, Mix};

/// Puts rows into a table, which must be empty; they become ascending.
fn fill(table: &mut [u32], triples: &[Triple]) {
    let mut sorted = triples.to_vec();
    sorted.sort();
    table[0] = sorted.len() as u32;
    table[1..=3 * sorted.len()].copy_from_slice(&sorted.concat());
}

/// A store whose tables hold these statements and facts; the facts alone are kept, each with support 1, until a statement changes.
fn lent(statements: &[Triple], facts: &[Triple]) -> Store {
    let mut store = Store::empty(Capacities::MOST);
    fill(&mut store.statements, statements);
    fill(&mut store.facts, facts);
    fill(&mut store.kept, facts);
    store.supports[..facts.len()].fill(1);
    store
}

/// The store of a run, saturated: all statements but one are lent, and the last is added.
pub fn saturated(statements: &[Triple], facts: &[Triple]) -> Store {
    let (last, others) = statements.split_last().expect("a statement");
    let mut store = lent(others, facts);
    assert_eq!(store.add(*last), Ok(Updated::Applied), "adding {last:?}");
    store
}

/// Runs a delivery: how many of its entries were applied.
fn applied(store: &mut Store, bytes: &[u8]) -> usize {
    store.deliver(bytes).map_or(0, |delivered| delivered.applied as usize)
}

/// How long our library takes to load and saturate the triples, by deliveries, in the order in which they come.
fn delivered(statements: &[Triple], facts: &[Triple]) -> Duration {
    Ours::new().load(statements, facts).expect("deliveries that are applied")
}

/// Ways of loading, and updates without statements, where a fact carries itself alone.
pub struct Alone {
    /// Deliveries, the facts in ascending order.
    pub ascending: Duration,
    /// The facts are lent as a table, and one delivery adds the statements.
    pub statements_delivered: Duration,
    /// All is lent but one statement, which is added: the kept facts are worked out afresh, once.
    pub afresh: Duration,
    /// A fact added and withdrawn where there are no statements.
    pub plain: [Duration; 2],
    /// Question 1 alone, for the kept way and for the rewritten way.
    pub first_question: [Duration; 2],
}

impl Alone {
    /// Measures all of it.
    pub fn measure(scale: &Scale, statements: &[Triple], facts: &[Triple]) -> Alone {
        progress("our library: ways of loading");
        let bytes = delivery([&[], &[], statements, &[]]);
        let (last, others) = statements.split_last().expect("a statement");
        let by_delivery = |_| {
            let mut store = lent(&[], facts);
            timed(|| assert_eq!(applied(&mut store, &bytes), statements.len())).0
        };
        let by_one = |_| {
            let mut store = lent(others, facts);
            timed(|| assert_eq!(store.add(*last), Ok(Updated::Applied))).0
        };
        let store = saturated(statements, facts);
        let mut ascending = facts.to_vec();
        ascending.sort();
        Alone {
            ascending: median((0..scale.rounds).map(|_| delivered(statements, &ascending)).collect()),
            statements_delivered: median((0..scale.rounds).map(by_delivery).collect()),
            afresh: median((0..scale.rounds).map(by_one).collect()),
            plain: updates(&mut lent(&[], facts), &spread(facts, 50)),
            first_question: WAYS.map(|way| first_question(&store, way)),
        }
    }
}

/// Question 1 alone: a question with no word is refused by 6 right after it.
fn first_question(store: &Store, way: Way) -> Duration {
    repeated(21, || assert_eq!(ask(store, way, &[], &mut []).err(), Some(Refusal::Question)))
}

/// One copy of some tables and of supports.
fn copy_of(tables: &[&[u32]], supports: &[u16]) -> Duration {
    let (mut words, mut places) = (tables.iter().map(|table| table.to_vec()).collect::<Vec<_>>(), supports.to_vec());
    repeated(21, || {
        words.iter_mut().zip(tables).for_each(|(to, table)| to.copy_from_slice(table));
        places.copy_from_slice(supports);
    })
}

/// One copy of all four tables.
fn copy(store: &Store) -> Duration {
    copy_of(&[&store.statements, &store.facts, &store.kept], &store.supports)
}

/// Question 1 for a delivery alone, which reads all four tables: one with no byte is refused by 9 right after it.
fn first_of_delivery(store: &Store) -> Duration {
    let mut store = store.clone();
    repeated(21, || assert_eq!(store.deliver(&[]), Err(Refusal::Delivery)))
}

/// Additions and withdrawals of one triple after another: the median of each. The store has the triples before and after.
fn updates(store: &mut Store, triples: &[Triple]) -> [Duration; 2] {
    let mut added = Vec::new();
    let mut withdrawn = Vec::new();
    for &t in triples {
        let (time, answer) = timed(|| store.withdraw(t));
        assert_eq!(answer, Ok(Updated::Applied), "withdrawing {t:?}");
        withdrawn.push(time);
        let (time, answer) = timed(|| store.add(t));
        assert_eq!(answer, Ok(Updated::Applied), "adding {t:?}");
        added.push(time);
    }
    [median(added), median(withdrawn)]
}

/// A time, and in brackets how many of a unit it is worth.
fn cell(duration: Duration, unit: Duration) -> String {
    format!("{} ({})", time(duration), times(duration, unit))
}

/// A store, and the questions that it is asked, by name.
pub type Asked = (Ours, Vec<(&'static str, Vec<u32>)>);

/// A store of these statements and facts, saturated, with questions.
pub fn asked(statements: &[Triple], facts: &[Triple], questions: Vec<(&'static str, Vec<u32>)>) -> Asked {
    let mut ours = Ours::new();
    ours.store = saturated(statements, facts);
    (ours, questions)
}

/// A question that the peers are not asked, since Jena takes some 20 s for it by the rewritten way: each class of each thing has all classes
/// below it.
fn classes_below() -> (&'static str, Vec<u32>) {
    let [x, y, z] = [0, 1, 2].map(variable);
    ("x is of class y, and z is a subclass of y", question(&[[x, 1, y], [z, 2, y]], &[y, z]))
}

/// All questions by both ways on stores of several sizes.
pub fn questions_by_size(scale: &Scale, statements: &[Triple], mix: Mix) -> Outcome<String> {
    let store = |&n: &usize| {
        let facts = workload::facts(n, statements.len(), mix, 7);
        let mut questions = workload::questions(&facts);
        questions.push(classes_below());
        asked(statements, &facts, questions)
    };
    by_size(scale, scale.sizes.iter().map(store).collect())
}

/// The same questions by both ways on stores of several sizes. The last column has the growth of the time from the first store to the last,
/// divided by that of the rows that the way is lent.
pub fn by_size(scale: &Scale, mut stores: Vec<Asked>) -> Outcome<String> {
    let mut out = String::new();
    for (way, unit) in WAYS.into_iter().zip(["kept rows", "facts"]) {
        let title = way.title();
        progress(&format!("our library: questions by size: {}", title.to_lowercase()));
        let rows: Vec<usize> = stores.iter().map(|(ours, _)| lent_facts(&ours.store, way)[0] as usize).collect();
        let sizes: String = rows.iter().map(|&n| format!(" {} {unit} |", grouped(n))).collect();
        out += &format!("{title}.\n\n| question |{sizes} growth / proportional |\n|{}\n", "---|".repeat(rows.len() + 2));
        for i in 0..stores[0].1.len() {
            let measured = stores.iter_mut().map(|(ours, questions)| Ok(median(ours.times(way, &questions[i].1, 5 * scale.runs)?)));
            let measured = measured.collect::<Outcome<Vec<Duration>>>()?;
            let last = rows.len() - 1;
            let growth = ratio(measured[last], measured[0]) * rows[0] as f64 / rows[last] as f64;
            let cells: String = measured.iter().map(|&duration| format!(" {} |", time(duration))).collect();
            out += &format!("| {} |{cells} {} |\n", stores[0].1[i].0, digits(growth, 2));
        }
        out += "\n";
    }
    Ok(out)
}

/// Question 1 for both ways and for a delivery, on stores of several sizes, beside one memcpy of the tables that it reads.
pub fn first_questions(scale: &Scale, statements: &[Triple], mix: Mix) -> String {
    progress("our library: question 1");
    let mut out = String::from("In brackets: how many times one memcpy of the tables read.\n\n");
    out += "| facts | kept rows | statements and kept facts | statements and facts | all four tables |\n|---|---|---|---|---|\n";
    for &n in &scale.sizes {
        let store = saturated(statements, &workload::facts(n, statements.len(), mix, 7));
        let of_way = |way| cell(first_question(&store, way), copy_of(&[&store.statements, lent_facts(&store, way)], &[]));
        let [kept, rewritten] = WAYS.map(of_way);
        let all = cell(first_of_delivery(&store), copy(&store));
        out += &format!("| {} | {} | {kept} | {rewritten} | {all} |\n", grouped(n), grouped(store.kept[0] as usize));
    }
    out
}

/// Lone updates on stores of several sizes.
pub fn updates_by_size(scale: &Scale, statements: &[Triple], mix: Mix) -> String {
    let mut out = String::from("| facts | kept rows | memcpy | add a fact | withdraw a fact | add a statement | withdraw a statement |\n");
    out += "|---|---|---|---|---|---|---|\n";
    for &n in &scale.sizes {
        progress(&format!("our library: updates with {n} facts"));
        let facts = workload::facts(n, statements.len(), mix, 7);
        let mut store = saturated(statements, &facts);
        let unit = copy(&store);
        let [added, withdrawn] = updates(&mut store, &spread(&facts, 50));
        let [stated, unstated] = updates(&mut store, &spread(statements, 10));
        let cells = [added, withdrawn, stated, unstated].map(|t| cell(t, unit)).join(" | ");
        out += &format!("| {} | {} | {} | {cells} |\n", grouped(n), grouped(store.kept[0] as usize), time(unit));
    }
    out
}

/// Listings of the largest store, as stored and in the other orders.
pub fn listings(scale: &Scale, statements: &[Triple], mix: Mix) -> String {
    progress("our library: listings");
    let n = *scale.sizes.last().expect("a size");
    let store = saturated(statements, &workload::facts(n, statements.len(), mix, 7));
    let unit = copy(&store);
    let mut rows = vec![0u32; store.kept.len()];
    let mut out = format!("{} facts, {} kept rows.\n\n", grouped(n), grouped(store.kept[0] as usize));
    out += "| listing | order 0 (as stored) | other orders |\n|---|---|---|\n";
    for (name, table) in [("statements", Table::Statements), ("facts", Table::Facts), ("kept facts", Table::Kept)] {
        let mut times = Order::ALL.into_iter().map(|order| repeated(5, || assert!(store.list(table, order, &mut rows).is_ok())));
        let first = times.next().expect("an order");
        let mut others: Vec<Duration> = times.collect();
        others.sort();
        out += &format!("| {name} | {} | {} to {} |\n", cell(first, unit), cell(others[0], unit), cell(others[4], unit));
    }
    out
}

/// Deliveries, beside question 1.
pub fn deliveries(scale: &Scale, statements: &[Triple]) -> String {
    progress("our library: deliveries");
    let facts = workload::facts(scale.facts + scale.facts / 4, statements.len(), workload::DENSE, 7);
    let (new, old): (Vec<_>, Vec<_>) = facts.iter().enumerate().partition(|(i, _)| i % 5 == 0);
    let [new, old] = [new, old].map(|part| part.into_iter().map(|(_, &t)| t).collect::<Vec<Triple>>());
    let (first, second) = statements.split_at(statements.len() / 2);
    let store = saturated(first, &old);
    let unit = first_of_delivery(&store);
    let mut out = format!(
        "A store of {} facts, {} statements and {} kept rows; question 1 alone takes {}.\n\n",
        grouped(old.len()),
        first.len(),
        grouped(store.kept[0] as usize),
        time(unit)
    );
    out += "| delivery | time (in brackets: how many times question 1) |\n|---|---|\n";
    for (name, count, bytes) in
        [("facts added", new.len(), delivery([&[], &[], &[], &new])), ("statements added", second.len(), delivery([&[], &[], second, &[]]))]
    {
        let run = |_| {
            let mut store = store.clone();
            timed(|| assert_eq!(applied(&mut store, &bytes), count)).0
        };
        out += &format!("| {} {name} | {} |\n", grouped(count), cell(median((0..scale.rounds).map(run).collect()), unit));
    }
    out
}
