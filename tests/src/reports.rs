//! Differences reported, also those that end the program.

use crate::options::Options;
use crate::session::{Failure, Harness};
use crate::shorten;
use std::path::{Path, PathBuf};
use std::process::{exit, Command};

/// Runs this program again to make the calls, so that a call that ends it is reported too.
pub fn watch() -> ! {
    let again = |more: &[&str]| {
        let program = std::env::current_exe().expect("this program has no path");
        let mut command = Command::new(program);
        command.args(std::env::args().skip(1)).args(more);
        command.status().expect("this program cannot be started")
    };
    let status = again(&["--watched"]);
    if let Some(code) = status.code() {
        exit(code);
    }
    println!("a call ended the program ({status}); once more, with a trace ..");
    let trace = beside_program("trace.script");
    let status = again(&["--watched", "--trace", &trace.to_string_lossy()]);
    if let Some(code) = status.code() {
        println!("with a trace it ended by itself, with status {code}");
    } else {
        let text = std::fs::read_to_string(&trace).unwrap_or_default();
        print_script("the last call ended the program", &text, &trace);
    }
    exit(1)
}

/// A file beside this program's own.
pub fn beside_program(name: &str) -> PathBuf {
    let program = std::env::current_exe().expect("this program has no path");
    program.with_file_name(name)
}

/// Prints a script that is not too long, and says where it lies.
fn print_script(what: &str, text: &str, path: &Path) {
    println!("DIFFERENCE: {what}");
    if text.len() < 20_000 {
        println!("{text}");
    }
    println!(
        "the script is in {}; run it with --replay, in the same part",
        path.display()
    );
}

/// Reports a difference with the shortest script found, and ends.
pub fn report(harness: &mut Harness, options: &Options, place: &str, failure: Failure) -> ! {
    let failure = shorten::shortened(harness, failure);
    let what = failure.what.replace('\n', "\n# ");
    let mut text = format!("# seed {}, {place}\n# {what}\n", options.seed);
    for command in &failure.script {
        text += &format!("{command}\n");
    }
    let path = beside_program("difference.script");
    std::fs::write(&path, &text).expect("the script cannot be written");
    print_script(&failure.what, &text, &path);
    if let Some(fault) = &options.fault {
        println!("the fault {fault} is planted");
    }
    exit(1)
}
