//! The field list: texts worked out by hand. On document 01's example the
//! fields have 7, 20, 12 and 9 bytes and begin at 0, 7, 27 and 39; what follows
//! begins at 48. A block has 24 bytes and 6 for each sample, a field 6 has 12, a
//! field 7 has 7, a field 8 has 9.

mod common;

use common::*;
use second::listing::fields;
use second::nearby::whole;
use second::write::*;

/// The lines of fields 1 to 4 of the example.
const START: &str = "1 0 mark
2 7 vehicle LTESTVEH000000001
3 27 cycle 2 phases 2
4 39 tolerances 30 20 300
";

/// The list of the example's fields 1 to 4 and these, without the lines of the four.
fn behind_the_start(some: &[Vec<u8>]) -> String {
    let list = fields(&[&start()[..], some].concat().concat());
    list.strip_prefix(START).expect(&list).to_string()
}

/// The list of the example with one field put in another's place: its last line.
fn last_with(at: usize, field: Vec<u8>) -> String {
    let mut some = example();
    some[at] = field;
    let list = fields(&some.concat());
    let lines: Vec<&str> = list.lines().collect();
    assert_eq!(lines.len(), at + 1, "{list}");
    lines[at].to_string()
}

/// The block of 121 has 750 bytes.
#[test]
fn the_example() {
    assert_eq!(behind_the_start(&example()[4..]), "5 48 own 0 121\n6 798 recharge 15\n");
    assert_eq!(behind_the_start(&example_of(120)[4..]), "5 48 own 0 120\n6 792 recharge 15\n");
    assert_eq!(fields(&start().concat()), START);
}

/// The small record with every kind of field; it has 196 bytes.
#[test]
fn every_kind_of_field() {
    let expected = "1 0 mark
2 7 vehicle LTESTVEH000000001
3 27 cycle 2 phases 2
4 39 tolerances 30 20 3
5 48 stretches 1 100
6 57 before 720000
7 69 own 0 3
8 111 other LTESTVEH000000002
9 141 own 3 2
10 177 after -5
11 189 recharge 15
";
    assert_eq!(fields(&whole()), expected);
}

/// T = 2400 and four phases make 1 + 8 + 4802 bytes of value, so field 4 begins
/// at 27 + 4814. Numbers at their limits.
#[test]
fn the_greatest_numbers() {
    let cycle = cycle(&[1, 2, 3, 2400], &[1500; 2401]);
    let some = [mark(), vehicle(b"Z9Z9Z9Z9Z9Z9Z9Z9Z"), cycle, tolerances([100, 40, 1200])];
    let more = [stretches(4_000_000, 1500), transfer(0, -10_000_000_000_000)];
    let last = [transfer(1, 10_000_000_000_000), recharge(2_000_000)];
    let expected = "1 0 mark
2 7 vehicle Z9Z9Z9Z9Z9Z9Z9Z9Z
3 27 cycle 2400 phases 1 2 3 2400
4 4841 tolerances 100 40 1200
5 4850 stretches 4000000 1500
6 4859 before -10000000000000
7 4871 after 10000000000000
8 4883 recharge 2000000
";
    assert_eq!(fields(&[some.concat(), more.concat(), last.concat()].concat()), expected);
}

/// Field 6 stands here as in the record, and is doubled in the trace.
#[test]
fn transfers_as_they_stand() {
    let mut some = example();
    some.insert(5, transfer(1, -2_000_001));
    some.insert(4, transfer(0, 1_000_000));
    let expected = "5 48 before 1000000
6 60 own 0 121
7 810 after -2000001
8 822 recharge 15
";
    assert_eq!(behind_the_start(&some[4..]), expected);
    assert_eq!(line(&trace_of(&some), "transfer"), "transfer before 2000000 after -4000002");
}

/// Twins: of a block passed over first number and samples are not looked at.
#[test]
fn blocks_passed_over() {
    let foreign = block(OTHER, 99, &[BAD, BAD]);
    let some = [
        foreign.clone(),
        stretches(5, 6),
        foreign.clone(),
        block(OWN, 0, &[GOOD; 200]),
        foreign,
        block(OWN, 200, &[GOOD]),
    ];
    let expected = "5 48 other LTESTVEH000000002
6 84 stretches 5 6
7 93 other LTESTVEH000000002
8 129 own 0 200
9 1353 other LTESTVEH000000002
10 1389 own 200 1
";
    assert_eq!(behind_the_start(&some), expected);
}

/// 2, 3, 4 and 8 of the first four fields; 8 is given from the first byte, the
/// third, or for the value.
#[test]
fn refusals_before_the_start() {
    assert_eq!(last_with(2, cycle(&[1], &[100; 3])), "3 27 refused 2");
    assert_eq!(last_with(3, tolerances([101, 20, 300])), "4 39 refused 3");
    assert_eq!(last_with(1, vehicle(FORBIDDEN)), "2 7 refused 4");
    assert_eq!(last_with(0, field(1, b"RUN2")), "1 0 refused 8");
    assert_eq!(last_with(1, vec![99]), "2 7 refused 8");
    assert_eq!(last_with(2, vec![3, 0, 8]), "3 27 refused 8");
    assert_eq!(last_with(1, recharge(15)), "2 7 refused 9");
    assert_eq!(last_with(3, block(OTHER, 0, &[GOOD])), "4 39 refused 9");
}

/// 4, 6, 8, 9, 14 and 19 behind them, at byte 48.
#[test]
fn refusals_behind_the_start() {
    let first = |field: Vec<u8>| behind_the_start(&[field]);
    assert_eq!(first(block(FORBIDDEN, 0, &[GOOD])), "5 48 refused 4\n");
    assert_eq!(first(block(OWN, 1, &[GOOD])), "5 48 refused 6\n");
    assert_eq!(first(block(OWN, 0, &[])), "5 48 refused 8\n");
    assert_eq!(first(transfer(2, 0)), "5 48 refused 8\n");
    assert_eq!(first(mark()), "5 48 refused 9\n");
    assert_eq!(first(transfer(0, 10_000_000_000_001)), "5 48 refused 14\n");
    assert_eq!(first(transfer(1, -10_000_000_000_001)), "5 48 refused 14\n");
    assert_eq!(first(recharge(0)), "5 48 refused 14\n");
    assert_eq!(first(stretches(0, 100)), "5 48 refused 19\n");
}

/// A refusal is the last line, whatever stands behind it; the blocks before it
/// are told, those passed over too.
#[test]
fn refusals_behind_blocks() {
    let foreign = block(OTHER, 0, &[BAD]);
    let begin = [foreign, block(OWN, 0, &[GOOD; 10])];
    let told = "5 48 other LTESTVEH000000002\n6 78 own 0 10\n";
    let rows = [
        (stretches(1, 1), "7 162 refused 9\n"),
        (block(OWN, 11, &[BAD]), "7 162 refused 6\n"),
        (recharge(2_000_001), "7 162 refused 14\n"),
        (vec![0], "7 162 refused 8\n"),
    ];
    for (field, last) in rows {
        let some = [&begin[..], &[field, recharge(15)]].concat();
        assert_eq!(behind_the_start(&some), format!("{told}{last}"));
    }
}

/// 5 names the first sample outside its limits, by its number in the run.
#[test]
fn five_with_its_sample() {
    let first = |samples: &[Raw]| behind_the_start(&[block(OWN, 0, samples)]);
    assert_eq!(first(&[BAD]), "5 48 refused 5 sample 0 1501 6000 -120\n");
    let volts = Raw { voltage: 15001, ..GOOD };
    assert_eq!(first(&[GOOD, volts, BAD]), "5 48 refused 5 sample 1 100 15001 -120\n");
    let amps = Raw { current: 10001, ..GOOD };
    assert_eq!(first(&[GOOD, GOOD, amps]), "5 48 refused 5 sample 2 100 6000 10001\n");
    let most = Raw { speed: 65535, voltage: 65535, current: i16::MIN };
    assert_eq!(first(&[most]), "5 48 refused 5 sample 0 65535 65535 -32768\n");
}

/// In a later block, behind one of another vehicle: 100 and 7 samples are
/// before it. The block of 100 has 624 bytes, that of the other vehicle 36.
#[test]
fn five_in_a_later_block() {
    let back = Raw { current: -10001, ..GOOD };
    let mut late = [GOOD; 20];
    (late[7], late[9]) = (back, BAD);
    let some = [block(OWN, 0, &[GOOD; 100]), block(OTHER, 5, &[BAD; 2]), block(OWN, 100, &late)];
    let expected = "5 48 own 0 100
6 672 other LTESTVEH000000002
7 708 refused 5 sample 107 100 6000 -10001
";
    assert_eq!(behind_the_start(&some), expected);
}

/// 15 at the input's end between two fields before field 4, and at the field
/// that is not finished, wherever it is cut.
#[test]
fn fifteen() {
    assert_eq!(fields(&[]), "1 0 refused 15\n");
    let bytes = example().concat();
    let lines = [START, "5 48 own 0 121\n6 798 recharge 15\n"].concat();
    let ends = [0, 7, 27, 39, 48, 798, 805];
    for length in 0..bytes.len() {
        let whole = ends.iter().filter(|end| **end <= length).count() - 1;
        let told: String = lines.split_inclusive('\n').take(whole).collect();
        let cut = format!("{told}{} {} refused 15\n", whole + 1, ends[whole]);
        let accepted = length == 48 || length == 798;
        assert_eq!(fields(&bytes[..length]), if accepted { told } else { cut });
    }
    assert_eq!(fields(&bytes), lines);
}

/// 7 needs 4,000,000 samples: 19,999 blocks of 200, one of 199, and two samples
/// more. A block of 200 has 1,224 bytes: the last of them begins at 48 + 19,998
/// × 1,224 = 24,477,600, the one of 199 has 1,218 bytes.
#[test]
fn seven() {
    let mut bytes = start().concat();
    for first in (0..3_999_800).step_by(200) {
        bytes.extend(block(OWN, first, &[GOOD; 200]));
    }
    bytes.extend(block(OWN, 3_999_800, &[GOOD; 199]));
    bytes.extend(block(OWN, 3_999_999, &[BAD; 2]));
    let list = fields(&bytes);
    let last = "20003 24477600 own 3999600 200
20004 24478824 own 3999800 199
20005 24480042 refused 7
";
    assert!(list.ends_with(last));
    assert_eq!(list.lines().count(), 20_005);
}
