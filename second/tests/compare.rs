//! Comparing with another program, record by record. There is one test only:
//! it writes the programs that it starts, and no other may be starting then.

use second::compare::{compare, Comparison, Outcome};
use second::what::What;
use std::fs;
use std::os::unix::fs::PermissionsExt;

/// A program that prints this of the record on its standard input.
fn program(what: What) -> String {
    let path = format!("{}/{}", env!("CARGO_TARGET_TMPDIR"), what.word());
    let second = env!("CARGO_BIN_EXE_second");
    fs::write(&path, format!("#!/bin/sh\nexec '{second}' {}\n", what.word())).unwrap();
    fs::set_permissions(&path, fs::Permissions::from_mode(0o755)).unwrap();
    path
}

/// The first 189 bytes are a record, the next ones are not, all 196 are one.
fn compared(what: What, program: &str) -> Outcome {
    let (kind, count, first_seed, options) = ("prefix", 8, 189, &[][..]);
    compare(&Comparison { what, program, kind, count, first_seed, options })
}

#[test]
fn same_different_and_impossible() {
    for what in What::ALL {
        match compared(what, &program(what)) {
            Outcome::Same(text) => assert_eq!(text, "8 records of prefix: all same\n"),
            Outcome::Different(text) | Outcome::Impossible(text) => panic!("{text}"),
        }
    }
    let Outcome::Different(said) = compared(What::Trace, &program(What::Desk)) else {
        panic!("the field list was not seen");
    };
    assert!(said.starts_with("prefix seed 189 differs in line "), "{said}");
    assert!(said.contains(": ours \"\", theirs \"1 0 mark\\n\"\nour trace:\nrun "), "{said}");
    assert!(said.contains("\ntheir trace:\nrun "), "{said}");
    let nowhere = compared(What::Sheet, "/nowhere/at/all");
    assert!(matches!(nowhere, Outcome::Impossible(text) if text.starts_with("/nowhere/at/all: ")));
}
