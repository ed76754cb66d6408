//! The rows on document 01's test card, with values worked out by hand; the
//! energies by document 02, L2.

mod common;

use common::{
    example, example_of, line, refused, sheet_of, start, with, EXAMPLE, EXAMPLE_OF_120, GOOD, OWN,
};
use second::bench::Question;
use second::closing::weighted;
use second::cycle::{Cycle, Verdict};
use second::run::{End, Run, Sample, Tolerances};
use second::sheet::sheet;
use second::write::{block, cycle, cycle_value, Raw};

/// Is the speed inside for points 0 100 0 and s = 30?
fn inside(p: i128, w: i128, v: i128) -> bool {
    let cycle = Cycle { phase_ends: vec![2], points: vec![0, 100, 0] };
    let verdict = cycle.band_by_walking(p, w).verdict(30, v) == Verdict::Inside;
    let gate = cycle.gate_table(30, w)[p as usize];
    let by_gate = i128::from(gate.least) <= v && v <= i128::from(gate.most);
    assert_eq!(verdict, by_gate);
    verdict
}

#[test]
fn band_without_a_window() {
    assert!(inside(10, 0, 20) && inside(10, 0, 80));
    assert!(!inside(10, 0, 19) && !inside(10, 0, 81));
}

#[test]
fn band_around_the_peak() {
    assert!(inside(20, 5, 45) && inside(20, 5, 130));
    assert!(!inside(20, 5, 44) && !inside(20, 5, 131));
}

#[test]
fn band_with_a_wide_window() {
    assert!(inside(10, 20, 0) && inside(10, 20, 130));
    assert!(!inside(10, 20, 131));
}

/// Points all 100, T = 2, every speed 131, 121 samples.
fn run_at_131(s: i128, allowance: i128) -> Run {
    let cycle = Cycle { phase_ends: vec![2], points: vec![100; 3] };
    let sample = Sample { speed: 131, voltage: 6000, current: -120 };
    let tolerances = Tolerances { speed: s, time: 20, allowance };
    Run::drive(&cycle, &tolerances, &[sample; 121])
}

#[test]
fn stop_at_sample_three_and_five() {
    let run = run_at_131(30, 3);
    assert_eq!((run.end, run.counted, run.outside), (End::Stop, 3, 4));
    assert_eq!((run.closed, run.drawn, run.finished.len()), (3, 3 * 1_440_000, 0));
    let run = run_at_131(30, 5);
    assert_eq!((run.end, run.counted, run.outside), (End::Stop, 5, 6));
}

#[test]
fn no_stop_with_one_step_more_of_tolerance() {
    let run = run_at_131(31, 3);
    assert_eq!((run.end, run.counted, run.outside), (End::None, 121, 0));
}

#[test]
fn stop_at_the_last_position() {
    let run = run_at_131(30, 39);
    assert_eq!((run.end, run.counted, run.finished.len()), (End::Stop, 39, 0));
    assert_eq!((run.outside, run.drawn), (40, 39 * 1_440_000));
    let run = run_at_131(30, 40);
    assert_eq!((run.end, run.counted, run.finished.len()), (End::None, 121, 3));
    assert_eq!(run.outside, 121);
}

/// Two equal samples make one interval, to which each adds its product.
#[test]
fn drawn_energy_of_an_interval() {
    let cycle = Cycle { phase_ends: vec![2], points: vec![0; 3] };
    let tolerances = Tolerances { speed: 30, time: 20, allowance: 0 };
    let drawn = |voltage, current| {
        let sample = Sample { speed: 0, voltage, current };
        (sample.drawn(), Run::drive(&cycle, &tolerances, &[sample; 2]).drawn)
    };
    assert_eq!(drawn(6000, -120), (720_000, 1_440_000));
    assert_eq!(drawn(6000, 120), (-720_000, -1_440_000));
    assert_eq!(drawn(15000, -10000), (150_000_000, 300_000_000));
}

#[test]
fn weighted_rows() {
    assert_eq!(weighted(30, 20, 100, &[300, 100, 200]), 210);
    assert_eq!(weighted(30, 20, 101, &[300, 100, 200, 201]), 210);
}

#[test]
fn lengths_of_the_cycle() {
    assert_eq!(with(2, cycle(&[2401], &[100; 2402])), refused(2, 3));
    assert_eq!(line(&with(2, cycle(&[2400], &[100; 2401])), "end"), "end none 121");
    assert_eq!(with(2, cycle(&[2], &[100; 3])), EXAMPLE);
    assert_eq!(with(2, cycle(&[1], &[100; 2])), refused(8, 3));
}

#[test]
fn one_second_asked_from_the_bench_controller() {
    let question = Question {
        cycle: cycle_value(&[1], &[100; 2]),
        speed_tolerance: 30,
        time_tolerance: 20,
        allowance: 300,
        position: 0,
        speed: 100,
    };
    assert_eq!(question.cycle.len(), 7);
    assert_eq!(question.answer(), -2);
}

#[test]
fn blocks_of_no_and_of_too_many_samples() {
    assert_eq!(with(4, block(OWN, 0, &[])), refused(8, 5));
    assert_eq!(with(4, block(OWN, 0, &[GOOD; 201])), refused(8, 5));
    assert_eq!(line(&with(4, block(OWN, 0, &[GOOD; 1])), "end"), "end none 1");
    assert_eq!(line(&with(4, block(OWN, 0, &[GOOD; 200])), "end"), "end none 200");
}

#[test]
fn empty_input() {
    assert_eq!(sheet(&[]), refused(15, 1));
}

#[test]
fn the_example_sheet() {
    assert_eq!(sheet_of(&example_of(120)), EXAMPLE_OF_120);
    assert_eq!(sheet_of(&example()), EXAMPLE);
}

#[test]
fn the_stop_rows_as_records() {
    let mut fields = start();
    fields.push(block(OWN, 0, &[Raw { speed: 131, ..GOOD }; 100]));
    fields[3] = second::write::tolerances([30, 20, 39]);
    let expected = "run LTESTVEH000000001\nend stop 39\ncycles 0\noutside 40\npassed 0\n\
                    drawn 56160000\nrefused 10\n";
    assert_eq!(sheet_of(&fields), expected);
}

/// The window is not taken across the joint of two cycles: points 0 0 100,
/// w = 20, s = 0. At position 0 the window is 0..20, where the target is 0;
/// the end of the cycle before has 100.
#[test]
fn no_window_across_the_joint() {
    let mut fields = start();
    fields[2] = cycle(&[2], &[0, 0, 100]);
    fields[3] = second::write::tolerances([0, 20, 0]);
    let samples: Vec<Raw> =
        (0..41).map(|at| Raw { speed: if at == 40 { 1 } else { 0 }, ..GOOD }).collect();
    fields.push(block(OWN, 0, &samples));
    let sheet = sheet_of(&fields);
    assert_eq!(line(&sheet, "end"), "end stop 40");
    assert_eq!(line(&sheet, "cycles"), "cycles 1");
}
