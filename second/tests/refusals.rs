//! Each refusal number of a record by itself, on document 01's example with
//! one more sample.

mod common;

use common::*;
use second::sheet::sheet;
use second::write::*;

#[test]
fn two_the_cycle_breaks_a_rule() {
    let bad = [
        cycle(&[], &[100; 4]),
        cycle(&[1, 2, 3, 4, 5], &[100; 6]),
        cycle(&[0, 2], &[100; 3]),
        cycle(&[1, 1, 2], &[100; 3]),
        cycle(&[2, 1], &[100; 3]),
        cycle(&[1], &[100; 3]),
        cycle(&[3], &[100; 3]),
        cycle(&[2], &[100, 100, 1501]),
        cycle(&[2], &[65535, 100, 100]),
        cycle(&[1, 1], &[100; 2]),
        cycle(&[2401], &[0; 2402]),
    ];
    for field in bad {
        assert_eq!(with(2, field), refused(2, 3));
    }
}

#[test]
fn two_the_length_does_not_match() {
    let good = cycle_value(&[2], &[100; 3]);
    let one_more = [&good[..], &[0]].concat();
    let two_more = [&good[..], &[0, 100]].concat();
    let too_many_phases = [&[255][..], &good[1..]].concat();
    for value in [one_more, two_more, too_many_phases] {
        assert_eq!(with(2, field(3, &value)), refused(2, 3));
    }
}

#[test]
fn cycles_that_are_taken() {
    for good in [
        cycle(&[1, 2], &[100; 3]),
        cycle(&[1, 2, 3, 4], &[100; 5]),
        cycle(&[2], &[0, 1500, 0]),
        cycle(&[1, 2, 3, 2400], &[100; 2401]),
    ] {
        assert_eq!(line(&with(2, good), "end"), "end none 121");
    }
}

#[test]
fn three_a_tolerance() {
    for bad in [[101, 20, 300], [30, 41, 300], [30, 20, 1201], [65535, 0, 0]] {
        assert_eq!(with(3, tolerances(bad)), refused(3, 4));
    }
    assert_eq!(with(3, tolerances([100, 40, 1200])), EXAMPLE);
    assert_eq!(with(3, tolerances([0, 0, 0])), EXAMPLE);
}

#[test]
fn four_a_forbidden_character() {
    for bad in *b"IOQioqaz/:@[ \x00\xFF" {
        let mut number = *OWN;
        number[5] = bad;
        assert_eq!(with(1, vehicle(&number)), refused(4, 2));
        assert_eq!(with(4, block(&number, 0, &[GOOD])), refused(4, 5));
    }
}

#[test]
fn five_a_sample_value() {
    for bad in [
        Raw { speed: 1501, ..GOOD },
        Raw { voltage: 15001, ..GOOD },
        Raw { current: 10001, ..GOOD },
        Raw { current: -10001, ..GOOD },
        Raw { current: i16::MIN, ..GOOD },
    ] {
        assert_eq!(with(4, block(OWN, 0, &[GOOD, bad])), refused(5, 5));
    }
    let greatest = Raw { speed: 1500, voltage: 15000, current: 10000 };
    let least = Raw { speed: 0, voltage: 0, current: -10000 };
    assert_eq!(line(&with(4, block(OWN, 0, &[greatest, least])), "end"), "end none 2");
}

#[test]
fn six_a_first_number() {
    assert_eq!(with(4, block(OWN, 1, &[GOOD])), refused(6, 5));
    let next = |first| with_also(5, block(OWN, first, &[GOOD]));
    assert_eq!(next(120), refused(6, 6));
    assert_eq!(next(122), refused(6, 6));
    assert_eq!(next(1 << 31 | 121), refused(6, 6));
    assert_eq!(line(&next(121), "end"), "end none 122");
}

#[test]
fn eight_tag_length_mark_and_kind() {
    for tag in [0, 9, 255] {
        assert_eq!(with_also(4, field(tag, b"RUN1")), refused(8, 5));
    }
    assert_eq!(with(0, field(1, b"RUN2")), refused(8, 1));
    assert_eq!(with_also(4, transfer(2, 0)), refused(8, 5));
    assert_eq!(with_also(4, transfer(255, 0)), refused(8, 5));
}

#[test]
fn eight_every_impossible_length() {
    let allowed = |tag: u8, length: usize| match tag {
        1 | 7 => length == 4,
        2 => length == 17,
        3 => (9..=4811).contains(&length),
        4 | 8 => length == 6,
        5 => (27..=1221).contains(&length) && (21..length).step_by(6).any(|at| at + 6 == length),
        _ => length == 9,
    };
    for tag in 1..=8u8 {
        for length in 0..=65535usize {
            let head = [&[tag][..], &(length as u16).to_be_bytes()].concat();
            let number = if allowed(tag, length) { 15 } else { 8 };
            assert_eq!(sheet(&head), refused(number, 1), "tag {tag} length {length}");
        }
    }
}

#[test]
fn nine_the_order_of_the_first_four() {
    let fields = example();
    for at in 0..4 {
        for other in 0..6 {
            if other != at {
                let swapped = [&fields[..at], &[fields[other].clone()]].concat();
                assert_eq!(sheet_of(&swapped), refused(9, at + 1));
            }
        }
    }
}

#[test]
fn nine_after_the_start() {
    for again in 0..4 {
        assert_eq!(with_also(4, example()[again].clone()), refused(9, 5));
        assert_eq!(with_also(5, example()[again].clone()), refused(9, 6));
    }
    let after = |fields: &[Vec<u8>]| sheet_of(&[&start()[..], fields].concat());
    let (before, behind, ac) = (transfer(0, 1), transfer(1, 1), recharge(1));
    let (own, foreign) = (block(OWN, 0, &[GOOD]), block(OTHER, 0, &[GOOD]));
    assert_eq!(after(&[before.clone(), before.clone()]), refused(9, 6));
    assert_eq!(after(&[own.clone(), before.clone()]), refused(9, 6));
    assert_eq!(after(&[behind.clone(), before.clone()]), refused(9, 6));
    for late in [&own, &foreign, &behind, &before] {
        assert_eq!(after(&[behind.clone(), late.clone()]), refused(9, 6));
        assert_eq!(after(&[ac.clone(), late.clone()]), refused(9, 6));
    }
    assert_eq!(after(&[ac.clone(), ac]), refused(9, 6));
}

#[test]
fn foreign_blocks_do_not_move_the_place() {
    let foreign = block(OTHER, 9, &[BAD]);
    let mut fields = start();
    fields.extend([foreign.clone(), transfer(0, 7), foreign.clone()]);
    fields.extend([block(OWN, 0, &[GOOD; 121]), foreign, transfer(1, 0), recharge(15)]);
    let sheet = sheet_of(&fields);
    assert_eq!(line(&sheet, "passed"), "passed 3");
    assert_eq!(line(&sheet, "drawn"), "drawn 172800000");
    assert_eq!(line(&sheet, "ac"), "ac 937500");
}

#[test]
fn nine_a_foreign_block_before_the_start() {
    for at in 0..4 {
        assert_eq!(with_also(at, block(OTHER, 0, &[GOOD])), refused(9, at + 1));
    }
}

#[test]
fn fourteen_amounts() {
    let most = 10_000_000_000_000;
    for bad in [most + 1, -most - 1, i64::MAX, i64::MIN] {
        assert_eq!(with_also(4, transfer(0, bad)), refused(14, 5));
        assert_eq!(with_also(5, transfer(1, bad)), refused(14, 6));
    }
    for good in [most, -most] {
        assert_eq!(line(&with_also(4, transfer(0, good)), "end"), "end none 121");
        assert_eq!(line(&with_also(5, transfer(1, good)), "end"), "end none 121");
    }
    for bad in [0, 2_000_001, u32::MAX] {
        assert_eq!(with(5, recharge(bad)), refused(14, 6));
    }
    assert_eq!(line(&with(5, recharge(1)), "ac"), "ac 62500");
    assert_eq!(line(&with(5, recharge(2_000_000)), "refused"), "refused 12");
}

#[test]
fn fifteen_wherever_the_input_ends() {
    let bytes = example().concat();
    let mut ends = vec![0];
    for field in example() {
        ends.push(ends[ends.len() - 1] + field.len());
    }
    for length in 0..bytes.len() {
        let whole = ends.iter().filter(|end| **end <= length).count() - 1;
        let between = ends.contains(&length) && whole >= 4;
        let got = sheet(&bytes[..length]);
        assert_eq!(got == refused(15, whole + 1), !between, "cut at {length}");
    }
}
