//! Document 01's shelf example: its statements and facts are added, and asked for by both ways.

use families::{Capacities, Order, Refusal, Rows, Store, Table, Triple};

const STATEMENTS: [Triple; 5] = [
    [16, 2, 17],
    [17, 2, 18],
    [19, 3, 20],
    [20, 4, 17],
    [20, 5, 16],
];
const FACTS: [Triple; 2] = [[32, 19, 33], [32, 1, 16]];

/// Variables of questions.
const V0: u32 = 0xC000_0000;
const V1: u32 = 0xC000_0001;

/// Questions by their text: one atom, then the head.
const QUESTIONS: [(&str, &[u32]); 2] = [
    ("v0 1 17", &[1, 1, V0, 1, 17, V0]),
    ("v0 2 v1", &[1, 2, V0, 2, V1, V0, V1]),
];

/// Prints rows below a line that says what they are.
fn print(what: &str, rows: Rows) {
    println!("{what}: {} rows", rows.len());
    for row in rows {
        let words: Vec<String> = row.iter().map(u32::to_string).collect();
        println!("{}", words.join(" "));
    }
}

/// Prints the kept facts, each with its support.
fn print_kept(store: &Store) {
    println!("kept: {} rows", store.kept[0]);
    let rows = store.kept[1..].chunks_exact(3).zip(&store.supports);
    for (row, support) in rows.take(store.kept[0] as usize) {
        println!("{} {} {} {support}", row[0], row[1], row[2]);
    }
}

fn main() -> Result<(), Refusal> {
    let mut store = Store::empty(Capacities {
        statements: 512,
        facts: 1024,
        kept: 4096,
    });
    for triple in STATEMENTS.into_iter().chain(FACTS) {
        println!("add {triple:?}: {:?}", store.add(triple)?);
    }
    print_kept(&store);
    let mut output = [0; 64];
    for (text, question) in QUESTIONS {
        let rows = store.ask_kept(question, &mut output)?;
        print(&format!("{text}, the kept way"), rows);
        let rows = store.ask_rewritten(question, &mut output)?;
        print(&format!("{text}, the rewritten way"), rows);
    }
    let rows = store.alternatives([V0, 1, 17], &mut output)?;
    print("alternatives of v0 1 17", rows);
    let rows = store.list(Table::Statements, Order::Pos, &mut output)?;
    print("statements by property, object, subject", rows);
    let fact = FACTS[1];
    println!("add {fact:?} again: {:?}", store.add(fact)?);
    println!("withdraw {fact:?}: {:?}", store.withdraw(fact)?);
    print_kept(&store);
    if let Err(refusal) = store.add([19, 3, 1]) {
        println!("add [19, 3, 1]: {refusal}");
    }
    println!("an empty delivery: {:?}", store.deliver(&[0; 10])?);
    if let Err(refusal) = store.deliver(&[0; 9]) {
        println!("nine zero bytes: {refusal}");
    }
    Ok(())
}
