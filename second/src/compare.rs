//! Comparing what another program prints with our own texts, record by record.

use crate::make::make;
use crate::what::What;
use std::io::{self, Read, Write};
use std::process::{Command, Stdio};
use std::thread;

/// At a difference so many lines are shown before it, and so many from it on.
const SHOWN: usize = 500;

/// What is compared, which program is asked, and with which records.
pub struct Comparison<'a> {
    pub what: What,
    pub program: &'a str,
    pub kind: &'a str,
    pub count: u64,
    pub first_seed: u64,
    pub options: &'a [usize],
}

/// How a comparison came out.
pub enum Outcome {
    Same(String),
    Different(String),
    Impossible(String),
}

/// Compares record after record, up to the first difference.
pub fn compare(comparison: &Comparison) -> Outcome {
    for seed in comparison.first_seed..comparison.first_seed + comparison.count {
        match compare_one(comparison, seed) {
            Outcome::Same(_) => {}
            other => return other,
        }
    }
    Outcome::Same(format!("{} records of {}: all same\n", comparison.count, comparison.kind))
}

fn compare_one(comparison: &Comparison, seed: u64) -> Outcome {
    let Some(record) = make(comparison.kind, seed, comparison.options) else {
        return Outcome::Impossible(format!("no kind {}\n", comparison.kind));
    };
    let ours = comparison.what.of(&record);
    match run_program(comparison.program, &record) {
        Err(error) => Outcome::Impossible(format!("{}: {error}\n", comparison.program)),
        Ok(theirs) if theirs == ours.as_bytes() => Outcome::Same(String::new()),
        Ok(theirs) => {
            let told = difference(comparison.what, &ours, &String::from_utf8_lossy(&theirs));
            Outcome::Different(format!("{} seed {seed} differs {told}", comparison.kind))
        }
    }
}

/// The first line that differs, and both texts.
pub fn difference(what: What, ours: &str, theirs: &str) -> String {
    let (word, us, them) = (what.word(), lines(ours), lines(theirs));
    let at = us.iter().zip(&them).take_while(|(our, their)| our == their).count();
    let line = |lines: &[&str]| lines.get(at).copied().unwrap_or("").to_string();
    let near = |lines: &[&str]| -> String {
        lines.iter().skip(at.saturating_sub(SHOWN)).take(2 * SHOWN).copied().collect()
    };
    format!(
        "in line {}: ours {:?}, theirs {:?}\nour {word}:\n{}their {word}:\n{}",
        at + 1,
        line(&us),
        line(&them),
        near(&us),
        near(&them)
    )
}

/// The lines of a text with their line ends.
fn lines(text: &str) -> Vec<&str> {
    text.split_inclusive('\n').collect()
}

/// Runs the program with the record on its standard input. The record is
/// written from a thread of its own, so that neither side waits for ever.
fn run_program(program: &str, record: &[u8]) -> io::Result<Vec<u8>> {
    let mut child = Command::new(program).stdin(Stdio::piped()).stdout(Stdio::piped()).spawn()?;
    let mut input = child.stdin.take().expect("standard input is a pipe");
    let mut output = child.stdout.take().expect("standard output is a pipe");
    let mut printed = Vec::new();
    thread::scope(|scope| {
        // The program may end before it has read all; that is no fault.
        scope.spawn(move || drop(input.write_all(record)));
        output.read_to_end(&mut printed)
    })?;
    child.wait()?;
    Ok(printed)
}
