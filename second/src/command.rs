//! The commands of the program.

use crate::ask::questions;
use crate::bench::answers;
use crate::compare::{compare, Comparison, Outcome};
use crate::make::make;
use crate::stream::{agree, stream, texts};
use crate::survey::survey;
use crate::what::What;
use std::io::{self, Read, Write};
use std::process::ExitCode;

const USAGE: &str = "second WHAT < RECORD
second make KIND SEED [OPTION..] > RECORD
second survey KIND COUNT [OPTION..]
second questions COUNT SEED > FILE
second answers < FILE
second compare WHAT PROGRAM KIND COUNT FIRST_SEED [OPTION..]
second stream KIND COUNT FIRST_SEED [OPTION..] > STREAM
second sheets < STREAM > SHEETS
second agree WHAT KIND COUNT FIRST_SEED [OPTION..] < TEXTS

what is printed or compared: sheet, trace, fields, desk (the trace, and behind it the fields)
kinds and options: small, long, full, prefix, change, million [BLOCK_SIZE [SAMPLES [TIME_TOLERANCE]]],
foreign [BLOCKS]
";

/// Why a command came to nothing.
enum Failure {
    /// The words are no command.
    Words,
    /// Reading or writing went wrong.
    Io(io::Error),
    /// What the command has to say about it.
    Said(String),
}

impl From<io::Error> for Failure {
    fn from(error: io::Error) -> Failure {
        Failure::Io(error)
    }
}

/// Does what the words ask.
pub fn obey(words: &[String]) -> ExitCode {
    let words: Vec<&str> = words.iter().map(String::as_str).collect();
    match act(&words) {
        Ok(code) => code,
        Err(failure) => {
            let text = match failure {
                Failure::Words => USAGE.to_string(),
                Failure::Io(error) => format!("second: {error}\n"),
                Failure::Said(text) => format!("second: {text}"),
            };
            eprint!("{text}");
            ExitCode::from(2)
        }
    }
}

fn act(words: &[&str]) -> Result<ExitCode, Failure> {
    match words {
        ["make", kind, seed, options @ ..] => {
            let record = make(kind, number(seed)?, &numbers(options)?).ok_or(Failure::Words)?;
            print(&record)
        }
        ["survey", kind, count, options @ ..] => {
            let text = survey(kind, number(count)?, &numbers(options)?).ok_or(Failure::Words)?;
            print(text.as_bytes())
        }
        ["questions", count, seed] => print(&questions(number(count)? as usize, number(seed)?)),
        ["answers"] => {
            let ended = || Failure::Said("the file ends inside a question\n".to_string());
            print(answers(&read_all()?).ok_or_else(ended)?.as_bytes())
        }
        ["compare", what, program, kind, count, first_seed, options @ ..] => {
            let (what, count, first_seed) = (meant(what)?, number(count)?, number(first_seed)?);
            let options = &numbers(options)?;
            answer_compare(&Comparison { what, program, kind, count, first_seed, options })
        }
        ["stream", kind, count, first_seed, options @ ..] => {
            let made = stream(kind, number(count)?, number(first_seed)?, &numbers(options)?);
            print(&made.ok_or(Failure::Words)?)
        }
        ["sheets"] => {
            let ended = || Failure::Said("the stream ends inside a record\n".to_string());
            print(texts(What::Sheet, &read_all()?).ok_or_else(ended)?.as_bytes())
        }
        ["agree", what, kind, count, first_seed, options @ ..] => {
            let (what, count, first_seed) = (meant(what)?, number(count)?, number(first_seed)?);
            let (options, bytes) = (numbers(options)?, read_all()?);
            let text = String::from_utf8_lossy(&bytes);
            let found = agree(what, &text, kind, count, first_seed, &options);
            answer_agree(found.ok_or(Failure::Words)?)
        }
        [what] => print(meant(what)?.of(&read_all()?).as_bytes()),
        _ => Err(Failure::Words),
    }
}

fn answer_agree(found: Result<String, String>) -> Result<ExitCode, Failure> {
    match found {
        Ok(text) => print(text.as_bytes()),
        Err(text) => {
            print(text.as_bytes())?;
            Ok(ExitCode::from(1))
        }
    }
}

fn answer_compare(comparison: &Comparison) -> Result<ExitCode, Failure> {
    match compare(comparison) {
        Outcome::Same(text) => print(text.as_bytes()),
        Outcome::Different(text) => {
            print(text.as_bytes())?;
            Ok(ExitCode::from(1))
        }
        Outcome::Impossible(text) => Err(Failure::Said(text)),
    }
}

fn meant(word: &str) -> Result<What, Failure> {
    What::meant(word).ok_or(Failure::Words)
}

fn number(word: &str) -> Result<u64, Failure> {
    word.parse().map_err(|_| Failure::Words)
}

fn numbers(words: &[&str]) -> Result<Vec<usize>, Failure> {
    words.iter().map(|word| Ok(number(word)? as usize)).collect()
}

fn read_all() -> Result<Vec<u8>, Failure> {
    let mut bytes = Vec::new();
    io::stdin().lock().read_to_end(&mut bytes)?;
    Ok(bytes)
}

fn print(bytes: &[u8]) -> Result<ExitCode, Failure> {
    let mut out = io::stdout().lock();
    out.write_all(bytes)?;
    out.flush()?;
    Ok(ExitCode::SUCCESS)
}
