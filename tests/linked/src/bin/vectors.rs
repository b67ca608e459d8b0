//! Holds the linked static library and the second implementation to outside vectors.
//!
//! vectors NAME WITHDRAWN < LINES
//!
//! NAME: the file that the lines come from. WITHDRAWN: lines that a request of document 02 answers otherwise, as "NAME
//! LINE REASON"; there both kernels must give one answer, and not the vector's.

#[path = "../archive.rs"]
mod archive;

use harness::comparison::outcome;
use harness::kernels::Second;
use harness::vectors::{parse, Vector};
use std::collections::BTreeSet;
use std::process::ExitCode;

fn main() -> ExitCode {
    match run(std::env::args().skip(1).collect()) {
        Ok(true) => ExitCode::SUCCESS,
        Ok(false) => ExitCode::FAILURE,
        Err(message) => {
            eprintln!("vectors: {message}");
            ExitCode::from(2)
        }
    }
}

fn run(arguments: Vec<String>) -> Result<bool, String> {
    let [name, list] = &arguments[..] else { return Err("usage: vectors NAME WITHDRAWN < LINES".to_string()) };
    let list = std::fs::read_to_string(list).map_err(|error| format!("{list}: {error}"))?;
    let withdrawn = withdrawn(&list, name)?;
    let mut lines = 0;
    let mut wrong = 0;
    for line in std::io::stdin().lines() {
        lines += 1;
        let line = line.map_err(|error| error.to_string())?;
        let vector = parse(&line).map_err(|error| format!("{name}, line {lines}: {error}"))?;
        if let Some(what) = judged(&vector, withdrawn.contains(&lines)) {
            println!("{name}, line {lines}: {what}");
            wrong += 1;
        }
    }
    if lines == 0 {
        return Err(format!("{name} has no line"));
    }
    if let Some(line) = withdrawn.iter().find(|&&line| line > lines) {
        return Err(format!("{name} has no line {line}"));
    }
    println!("{name}: {lines} lines, {} withdrawn, {wrong} wrong", withdrawn.len());
    Ok(wrong == 0)
}

/// The lines of one file that are withdrawn.
fn withdrawn(list: &str, name: &str) -> Result<BTreeSet<usize>, String> {
    let words = list.lines().map(|line| line.split(' ').collect::<Vec<_>>());
    let numbers = words.filter(|words| words[0] == name).map(|words| words.get(1).and_then(|word| word.parse().ok()));
    numbers.collect::<Option<_>>().ok_or("a withdrawn line without its number".to_string())
}

/// What is wrong with the answers to a vector, if anything.
fn judged(vector: &Vector, withdrawn: bool) -> Option<&'static str> {
    let first = outcome(&archive::Archive, &vector.call, &vector.before, &vector.output);
    let second = outcome(&Second, &vector.call, &vector.before, &vector.output);
    match (first == second, second == vector.after) {
        (false, _) => Some("the kernels differ"),
        (true, false) if !withdrawn => Some("both kernels answer otherwise"),
        (true, true) if withdrawn => Some("withdrawn, but both kernels still answer so"),
        _ => None,
    }
}
