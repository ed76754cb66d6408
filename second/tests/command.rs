//! The commands that print and compare, as they are typed.

mod common;

use common::{example, EXAMPLE};
use second::stream::{stream, texts};
use second::what::What;
use std::io::Write;
use std::process::{Command, Stdio};

/// What the program prints on its standard output, and its exit status.
fn second(words: &[&str], input: &[u8]) -> (String, i32) {
    let mut child = Command::new(env!("CARGO_BIN_EXE_second"))
        .args(words)
        .stdin(Stdio::piped())
        .stdout(Stdio::piped())
        .stderr(Stdio::null())
        .spawn()
        .unwrap();
    // a command that is none does not read its input
    drop(child.stdin.take().unwrap().write_all(input));
    let output = child.wait_with_output().unwrap();
    (String::from_utf8(output.stdout).unwrap(), output.status.code().unwrap())
}

#[test]
fn what_is_printed_of_a_record() {
    let record = example().concat();
    assert_eq!(second(&["sheet"], &record), (EXAMPLE.to_string(), 0));
    for what in What::ALL {
        assert_eq!(second(&[what.word()], &record), (what.of(&record), 0));
    }
    let (trace, fields) = (What::Trace.of(&record), What::Fields.of(&record));
    assert_eq!(What::Desk.of(&record), format!("{trace}{fields}"));
}

#[test]
fn texts_that_agree_and_others() {
    let records = stream("prefix", 8, 189, &[]).unwrap();
    for what in What::ALL {
        let text = texts(what, &records).unwrap();
        let agree = |word: &str| second(&["agree", word, "prefix", "8", "189"], text.as_bytes());
        assert_eq!(agree(what.word()), ("8 records of prefix: all same\n".to_string(), 0));
        let other = What::ALL.into_iter().find(|other| *other != what).unwrap();
        let (said, status) = agree(other.word());
        assert!(said.starts_with("prefix seed 189 differs in line "), "{said}");
        assert_eq!(status, 1);
    }
    assert_eq!(second(&["sheets"], &records).0, texts(What::Sheet, &records).unwrap());
}

/// Without the word for what is compared, a command is none.
#[test]
fn words_that_are_no_command() {
    let none = (String::new(), 2);
    assert_eq!(second(&["list"], &[]), none);
    assert_eq!(second(&["agree", "small", "20", "1"], &[]), none);
    assert_eq!(second(&["agree", "list", "small", "20", "1"], &[]), none);
    assert_eq!(second(&["compare", "/bin/cat", "small", "20", "1"], &[]), none);
    assert_eq!(second(&["compare", "list", "/bin/cat", "small", "20", "1"], &[]), none);
}
