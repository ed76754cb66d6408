//! The bench controller's answers: every refusal by itself, every
//! neighbouring pair, the verdicts, and the file form.

use second::ask::questions;
use second::bench::{answers, Question};
use second::write::cycle_value;

/// Points 0 100 0 at p = 10 with w = 0 and s = 30: 20..80 is inside.
fn good() -> Question {
    Question {
        cycle: cycle_value(&[2], &[0, 100, 0]),
        speed_tolerance: 30,
        time_tolerance: 0,
        allowance: 300,
        position: 10,
        speed: 50,
    }
}

#[test]
fn verdicts() {
    let answer = |speed| Question { speed, ..good() }.answer();
    assert_eq!([19, 20, 80, 81].map(answer), [1, 0, 0, 2]);
}

#[test]
fn two_for_any_fault_of_the_bytes() {
    let value = good().cycle;
    for bad in [vec![], vec![1], vec![0; 9], value[..8].to_vec(), cycle_value(&[1], &[0; 2])] {
        assert_eq!(Question { cycle: bad, ..good() }.answer(), -2);
    }
    let too_long = cycle_value(&[1, 2, 3, 2401], &[0; 2402]);
    assert_eq!(Question { cycle: too_long, ..good() }.answer(), -2);
}

#[test]
fn three_six_and_five_by_themselves() {
    for far in [101, 65536 + 30, u32::MAX] {
        assert_eq!(Question { speed_tolerance: far, ..good() }.answer(), -3);
        assert_eq!(Question { time_tolerance: far, ..good() }.answer(), -3);
        assert_eq!(Question { allowance: far.saturating_add(1200), ..good() }.answer(), -3);
        assert_eq!(Question { position: far, ..good() }.answer(), -6);
        assert_eq!(Question { speed: far.saturating_add(1400), ..good() }.answer(), -5);
    }
    assert_eq!(Question { position: 39, ..good() }.answer(), 2);
    assert_eq!(Question { position: 40, ..good() }.answer(), -6);
    assert_eq!(Question { time_tolerance: 40, ..good() }.answer(), 0);
    assert_eq!(Question { time_tolerance: 41, ..good() }.answer(), -3);
    assert_eq!(Question { allowance: 1201, ..good() }.answer(), -3);
    assert_eq!(Question { speed: 1500, ..good() }.answer(), 2);
}

#[test]
fn neighbouring_pairs() {
    let two = Question { cycle: vec![9], speed_tolerance: 101, ..good() };
    assert_eq!(two.answer(), -2);
    let three = Question { speed_tolerance: 101, position: 40, ..good() };
    assert_eq!(three.answer(), -3);
    let six = Question { position: 40, speed: 1501, ..good() };
    assert_eq!(six.answer(), -6);
}

#[test]
fn every_answer_is_often_asked_for() {
    let lines = answers(&questions(10_000, 1)).unwrap();
    for answer in ["0", "1", "2", "-2", "-3", "-5", "-6"] {
        let times = lines.lines().filter(|line| *line == answer).count();
        assert!(times >= 300, "{answer} came {times} times");
    }
    assert_eq!(lines.lines().count(), 10_000);
}

#[test]
fn a_file_that_ends_inside_a_question() {
    let file = good().to_bytes();
    assert_eq!(answers(&file), Some("0\n".to_string()));
    assert_eq!(answers(&file[..file.len() - 1]), None);
}
