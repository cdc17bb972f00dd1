//! How much stack a call of the exported library takes: it runs on a thread whose stack was painted, and what is no longer painted was used.

use crate::alone::saturated;
use crate::clock::progress;
use crate::contest::Outcome;
use crate::goods::{dictionary, files, TEXTS};
use crate::measure::WAYS;
use crate::numbers::grouped;
use crate::ours::{ask, DELIVERY_BYTES};
use crate::scale::Scale;
use crate::writing::Lent;
use families::{read_ntriples, Order, Store, Table, Triple, Updated};
use std::alloc::{alloc, dealloc, Layout};
use std::ffi::c_void;
use std::ptr::{null_mut, write_bytes};
use workload::{delivery, question, variable, CLASS, PROPERTY};

/// Room for pthread's attributes, which take 56 bytes.
type Attributes = [u64; 8];

extern "C" {
    fn pthread_attr_init(attributes: *mut Attributes) -> i32;
    fn pthread_attr_setstack(attributes: *mut Attributes, stack: *mut c_void, size: usize) -> i32;
    fn pthread_attr_destroy(attributes: *mut Attributes) -> i32;
    fn pthread_create(thread: *mut usize, attributes: *const Attributes, run: extern "C" fn(*mut c_void) -> *mut c_void, call: *mut c_void) -> i32;
    fn pthread_join(thread: usize, value: *mut *mut c_void) -> i32;
}

/// The size of the painted stack, more than any call takes, and the paint.
const STACK: usize = 16 << 20;
const PAINT: u8 = 0xA5;

/// What the thread runs: the call that it is given.
extern "C" fn run(call: *mut c_void) -> *mut c_void {
    let call = unsafe { &mut *call.cast::<&mut dyn FnMut()>() };
    call();
    null_mut()
}

/// Runs a call on the stack that is given, and waits for its end.
unsafe fn run_on(stack: *mut u8, mut call: &mut dyn FnMut()) {
    let mut attributes: Attributes = [0; 8];
    let mut thread = 0;
    let call: *mut &mut dyn FnMut() = &mut call;
    assert_eq!(pthread_attr_init(&mut attributes), 0);
    assert_eq!(pthread_attr_setstack(&mut attributes, stack.cast(), STACK), 0);
    assert_eq!(pthread_create(&mut thread, &attributes, run, call.cast()), 0);
    assert_eq!(pthread_join(thread, null_mut()), 0);
    assert_eq!(pthread_attr_destroy(&mut attributes), 0);
}

/// The bytes of stack that a thread with this call takes.
fn touched(call: &mut dyn FnMut()) -> usize {
    let layout = Layout::from_size_align(STACK, 4096).expect("a layout");
    unsafe {
        let stack = alloc(layout);
        assert!(!stack.is_null(), "no memory for a stack");
        write_bytes(stack, PAINT, STACK);
        run_on(stack, call);
        let painted = (0..STACK).take_while(|&i| stack.add(i).read_volatile() == PAINT).count();
        dealloc(stack, layout);
        STACK - painted
    }
}

/// The bytes of stack that a call takes, beside what any thread takes.
fn taken(mut call: impl FnMut()) -> usize {
    touched(&mut call) - touched(&mut || ())
}

/// A question of six atoms, as many as there may be.
fn longest_question() -> Vec<u32> {
    let [x, y, z] = [0, 1, 2].map(variable);
    let atoms = [[x, 1, CLASS + 40], [x, PROPERTY, y], [y, 1, CLASS], [y, PROPERTY, z], [z, 1, CLASS], [z, 1, CLASS + 40]];
    question(&atoms, &[x, y, z])
}

/// A question of six atoms about subclasses and subproperties, which are closed.
fn question_of_steps() -> Vec<u32> {
    let [x, y, z, u, p] = [0, 1, 2, 3, 4].map(variable);
    let atoms = [[x, 2, y], [y, 2, CLASS], [x, p, CLASS], [z, 3, u], [u, 3, PROPERTY], [z, p, u]];
    question(&atoms, &[x, y, p])
}

/// The stack that each update takes: a triple is withdrawn and added again, by itself and by a delivery.
fn updates(store: &mut Store, of: &str, triple: Triple, section: usize) -> [(String, usize); 3] {
    let withdrawn = taken(|| assert_eq!(store.withdraw(triple), Ok(Updated::Applied)));
    let added = taken(|| assert_eq!(store.add(triple), Ok(Updated::Applied)));
    let one: &[Triple] = &[triple];
    let mut sections: [&[Triple]; 4] = [&[]; 4];
    sections[section] = one;
    sections[section + 2] = one;
    let bytes = delivery(sections);
    let delivered = taken(|| assert_eq!(store.deliver(&bytes).map(|delivered| delivered.applied), Ok(2)));
    [
        (format!("a {of} added"), added),
        (format!("a {of} withdrawn"), withdrawn),
        (format!("a {of} withdrawn and added by a delivery"), delivered),
    ]
}

/// The stack that a question takes by each way.
fn asked(store: &Store, words: &[u32], rows: &mut [u32]) -> [usize; 2] {
    WAYS.map(|way| taken(|| assert!(ask(store, way, words, rows).is_ok())))
}

/// The stack that questions, alternatives and listings take.
fn questions(store: &Store) -> Vec<(String, usize)> {
    let mut rows = vec![0; store.kept.len()];
    let [kept, rewritten] = asked(store, &longest_question(), &mut rows);
    let [kept_steps, rewritten_steps] = asked(store, &question_of_steps(), &mut rows);
    let alternatives = taken(|| assert!(store.alternatives([variable(0), 1, CLASS], &mut rows).is_ok()));
    let listings = Order::ALL.map(|order| taken(|| assert!(store.list(Table::Kept, order, &mut rows).is_ok())));
    vec![
        ("a question of six atoms by the kept way".to_string(), kept),
        ("the same by the rewritten way".to_string(), rewritten),
        ("a question of six atoms about subclasses and subproperties by the kept way".to_string(), kept_steps),
        ("the same by the rewritten way".to_string(), rewritten_steps),
        ("the alternatives of an atom".to_string(), alternatives),
        ("a listing of the kept facts, the most of six orders".to_string(), listings.into_iter().fold(0, usize::max)),
    ]
}

/// The stack that reading takes, the most of all files, with each dictionary.
fn reading(scale: &Scale) -> usize {
    let mut delivery = vec![0; DELIVERY_BYTES];
    let mut most = 0;
    for file in files(scale.most_lines()) {
        for mut dictionary in TEXTS.map(dictionary) {
            most = most.max(taken(|| assert!(read_ntriples(file.text.as_bytes(), &mut dictionary, &mut delivery).is_ok())));
        }
    }
    most
}

/// The stack that writing takes, the most of all tables.
fn writing(scale: &Scale) -> Outcome<usize> {
    let mut most = 0;
    for &size in &scale.written {
        let lent = Lent::new(size)?;
        let mut output = vec![0; lent.lines.len()];
        most = most.max(taken(|| assert!(lent.write(&mut output).is_ok())));
    }
    Ok(most)
}

/// The stack that each kind of call takes on the largest store.
pub fn calls(scale: &Scale, statements: &[Triple]) -> Outcome<String> {
    progress("our library: stack");
    let facts = workload::facts(*scale.sizes.last().expect("a size"), statements.len(), workload::GROWING, 7);
    let mut store = saturated(statements, &facts);
    let mut measured = updates(&mut store, "fact", facts[0], 1).to_vec();
    measured.extend(updates(&mut store, "statement", statements[0], 0));
    measured.extend(questions(&store));
    measured.push(("a file of N-Triples read, the most of all files and dictionaries".to_string(), reading(scale)));
    measured.push(("kept facts written as N-Triples, the most of all tables".to_string(), writing(scale)?));
    let mut out = String::from("| call | stack |\n|---|---|\n");
    for (name, bytes) in measured {
        out += &format!("| {name} | {} kB |\n", grouped(bytes.div_ceil(1000)));
    }
    Ok(out)
}
