//! The second program. All the work is in the modules; see `command.rs`.

use std::process::ExitCode;

fn main() -> ExitCode {
    let words: Vec<String> = std::env::args().skip(1).collect();
    second::command::obey(&words)
}
