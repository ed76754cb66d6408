//! Neighbouring pairs of refusals: where both have their reason, the one the
//! paper names first is given.

mod common;

use common::*;
use second::sheet::sheet;
use second::write::*;

#[test]
fn eight_before_nine() {
    assert_eq!(with_also(1, field(1, b"RUN2")), refused(8, 2));
    assert_eq!(with_also(0, transfer(2, 0)), refused(8, 1));
    assert_eq!(with_also(6, field(9, b"")), refused(8, 7));
    assert_eq!(with_also(6, field(2, b"SHORT")), refused(8, 7));
    assert_eq!(with_also(0, block(OWN, 0, &[])), refused(8, 1));
}

#[test]
fn nine_before_the_content() {
    assert_eq!(with_also(2, vehicle(FORBIDDEN)), refused(9, 3));
    assert_eq!(with_also(1, cycle(&[1], &[100; 3])), refused(9, 2));
    assert_eq!(with_also(4, tolerances([999, 0, 0])), refused(9, 5));
    assert_eq!(with_also(3, block(FORBIDDEN, 5, &[BAD])), refused(9, 4));
    assert_eq!(with_also(6, block(FORBIDDEN, 5, &[BAD])), refused(9, 7));
    assert_eq!(with_also(5, transfer(0, i64::MAX)), refused(9, 6));
    assert_eq!(with_also(6, recharge(0)), refused(9, 7));
}

#[test]
fn eight_before_fourteen() {
    assert_eq!(with_also(4, transfer(2, i64::MAX)), refused(8, 5));
}

#[test]
fn four_before_passing_over() {
    assert_eq!(with_also(4, block(FORBIDDEN, 0, &[GOOD])), refused(4, 5));
}

#[test]
fn four_before_six_and_five() {
    assert_eq!(with_also(5, block(FORBIDDEN, 7, &[BAD])), refused(4, 6));
}

#[test]
fn passing_over_before_six_and_five() {
    let sheet = with_also(5, block(OTHER, 7, &[BAD]));
    assert_eq!(line(&sheet, "passed"), "passed 1");
    assert_eq!(line(&sheet, "ac"), "ac 937500");
}

#[test]
fn six_before_five() {
    assert_eq!(with_also(5, block(OWN, 7, &[BAD])), refused(6, 6));
}

/// The cycle was tested at field 3 already, so 2 comes before 3.
#[test]
fn two_before_three() {
    let mut fields = example();
    fields[2] = cycle(&[1], &[100; 3]);
    fields[3] = tolerances([999, 0, 0]);
    assert_eq!(sheet_of(&fields), refused(2, 3));
}

#[test]
fn eight_from_the_first_and_third_byte_before_fifteen() {
    let started = start().concat();
    let ends_with = |bytes: &[u8]| sheet(&[&started[..], bytes].concat());
    assert_eq!(ends_with(&[9]), refused(8, 5));
    assert_eq!(ends_with(&[7]), refused(15, 5));
    assert_eq!(ends_with(&[7, 99]), refused(15, 5));
    assert_eq!(ends_with(&[7, 0, 5]), refused(8, 5));
    assert_eq!(ends_with(&[7, 0, 4]), refused(15, 5));
}

/// A wrong mark, a wrong kind and a wrong place wait for the whole field.
#[test]
fn fifteen_before_nine_and_the_value() {
    let started = start().concat();
    let ends_with = |bytes: &[u8]| sheet(&[&started[..], bytes].concat());
    assert_eq!(ends_with(&[1, 0, 4, b'X', b'X', b'X']), refused(15, 5));
    assert_eq!(ends_with(&[1, 0, 4, b'X', b'X', b'X', b'X']), refused(8, 5));
    assert_eq!(ends_with(&[1, 0, 4, b'R', b'U', b'N', b'1']), refused(9, 5));
    assert_eq!(ends_with(&[6, 0, 9, 2, 0, 0]), refused(15, 5));
}

/// The first refused field ends the reading.
#[test]
fn nothing_behind_a_refused_field_is_read() {
    let mut fields = example();
    fields[3] = tolerances([30, 20, 1201]);
    fields.truncate(4);
    fields.push(vec![99]);
    assert_eq!(sheet_of(&fields), refused(3, 4));
}

/// Foreign blocks count among the accepted fields.
#[test]
fn the_field_number_counts_foreign_blocks() {
    let mut fields = start();
    fields.extend([block(OTHER, 0, &[GOOD]), block(OTHER, 0, &[BAD])]);
    fields.push(block(OWN, 0, &[BAD]));
    assert_eq!(sheet_of(&fields), refused(5, 7));
    fields.pop();
    fields.push(vec![5, 0]);
    assert_eq!(sheet_of(&fields), refused(15, 7));
}
