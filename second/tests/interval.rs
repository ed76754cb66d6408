//! Energy between samples (document 02, L2): rows worked out by hand. T = 2
//! and points all 100 unless said otherwise, so a cycle has 40 positions.

mod common;

use common::*;
use second::cycle::Cycle;
use second::run::{End, Finished, Run, Sample, Tolerances};
use second::write::{block, tolerances, transfer, Raw};

/// Draws 1 at speed 100, and 10 at speed 110; both are inside.
const SLOW: Sample = Sample { speed: 100, voltage: 1, current: -1 };
const FAST: Sample = Sample { speed: 110, voltage: 1, current: -10 };
/// Draws 1000; outside.
const AWAY: Sample = Sample { speed: 1500, voltage: 1, current: -1000 };

/// The run with allowance 0.
fn run(samples: &[Sample]) -> Run {
    let cycle = Cycle { phase_ends: vec![1, 2], points: vec![100; 3] };
    let tolerances = Tolerances { speed: 30, time: 20, allowance: 0 };
    Run::drive(&cycle, &tolerances, samples)
}

/// End, counted, closed, outside, drawn and the number of finished cycles.
fn told(run: &Run) -> (End, usize, usize, i128, i128, usize) {
    (run.end, run.counted, run.closed, run.outside, run.drawn, run.finished.len())
}

/// `count` slow samples and these.
fn slow_and(count: usize, last: &[Sample]) -> Vec<Sample> {
    [&vec![SLOW; count][..], last].concat()
}

#[test]
fn no_sample_and_one_sample() {
    assert_eq!(told(&run(&[])), (End::None, 0, 0, 0, 0, 0));
    assert_eq!(told(&run(&[FAST])), (End::None, 1, 0, 0, 0, 0));
    assert_eq!(told(&run(&[AWAY])), (End::Stop, 0, 0, 1, 0, 0));
    assert_eq!(told(&run(&[AWAY, SLOW])), (End::Stop, 0, 0, 1, 0, 0));
}

#[test]
fn an_interval_has_both_its_ends() {
    assert_eq!(told(&run(&[SLOW, FAST])), (End::None, 2, 1, 0, 11, 0));
    assert_eq!(told(&run(&[SLOW, FAST, FAST])), (End::None, 3, 2, 0, 31, 0));
    assert_eq!(told(&run(&[FAST, SLOW, SLOW])), (End::None, 3, 2, 0, 13, 0));
}

/// The interval over the joint belongs to the cycle before it.
#[test]
fn the_joint_of_two_cycles() {
    assert_eq!(told(&run(&slow_and(40, &[]))), (End::None, 40, 39, 0, 78, 0));
    let closed = run(&slow_and(40, &[FAST]));
    assert_eq!(told(&closed), (End::None, 41, 40, 0, 78 + 11, 1));
    assert_eq!(closed.finished, [Finished { energy: 89, distance: 39 * 200 + 210 }]);
    let next = run(&slow_and(40, &[&[FAST][..], &[SLOW; 40]].concat()));
    let second = Finished { energy: 11 + 39 * 2, distance: 210 + 39 * 200 };
    assert_eq!(next.finished, [closed.finished[0], second]);
}

/// A stopping sample closes the last interval and begins none.
#[test]
fn stops_beside_the_joint() {
    let last = run(&slow_and(39, &[AWAY, SLOW, SLOW]));
    assert_eq!(told(&last), (End::Stop, 39, 39, 1, 76 + 1001, 0));
    for behind in [&[][..], &[SLOW], &[SLOW; 80]] {
        let first = run(&slow_and(40, &[&[AWAY], behind].concat()));
        assert_eq!(told(&first), (End::Stop, 40, 40, 1, 78 + 1001, 1));
        assert_eq!(first.finished, [Finished { energy: 1079, distance: 39 * 200 + 1600 }]);
        let second = run(&slow_and(41, &[&[AWAY], behind].concat()));
        assert_eq!(told(&second), (End::Stop, 41, 41, 1, 80 + 1001, 1));
    }
}

/// The sample after cycle 64 brings the limit and is not judged.
#[test]
fn the_limit() {
    let most = 64 * 40;
    let slow = |count| run(&slow_and(count, &[]));
    assert_eq!(told(&slow(most - 1)), (End::None, 2559, 2558, 0, 5116, 63));
    assert_eq!(told(&slow(most)), (End::None, 2560, 2559, 0, 5118, 63));
    assert_eq!(told(&slow(most + 1)), (End::Limit, 2560, 2560, 0, 5120, 64));
    for behind in [&[][..], &[AWAY], &[FAST; 90]] {
        let away = run(&slow_and(most, &[&[AWAY], behind].concat()));
        assert_eq!(told(&away), (End::Limit, 2560, 2560, 0, 5118 + 1001, 64));
        let stop = run(&slow_and(most - 1, &[&[AWAY], behind].concat()));
        assert_eq!(told(&stop), (End::Stop, 2559, 2559, 1, 5116 + 1001, 63));
    }
}

/// The example's fields with blocks of 200 up to `offered`, then this block.
fn long(offered: usize, last: Vec<u8>) -> String {
    let mut fields = start();
    fields[3] = tolerances([30, 20, 0]);
    for first in (0..offered).step_by(200) {
        let samples = [GOOD; 200];
        fields.push(block(OWN, first as u32, &samples[..(offered - first).min(200)]));
    }
    fields.push(last);
    sheet_of(&fields)
}

/// It meets 6 and 5 as any other sample.
#[test]
fn refusals_of_the_sample_after_cycle_64() {
    let far = Raw { speed: 1500, ..GOOD };
    assert_eq!(line(&long(2559, block(OWN, 2559, &[GOOD])), "end"), "end none 2560");
    let limit = long(2560, block(OWN, 2560, &[far]));
    assert!(limit.contains("end limit 2560\ncycles 64\noutside 0\npassed 0\ndrawn 3686400000\n"));
    assert_eq!(long(2560, block(OWN, 2560, &[BAD])), refused(5, 18));
    assert_eq!(long(2560, block(OWN, 2561, &[BAD])), refused(6, 18));
    assert_eq!(long(2560, block(FORBIDDEN, 2560, &[GOOD])), refused(4, 18));
}

/// Field 6 is doubled on reading, and its limit looked at before that. The
/// transfer before the test brings E from 172,800,000 to 259,200,000.
#[test]
fn field_6_is_doubled() {
    let before = with_also(4, transfer(0, 43_200_000));
    assert!(before.ends_with("drawn 172800000\nweighted 720000\nrange 25\nac 600000\n"));
    let after = with_also(5, transfer(1, 43_200_000));
    assert!(after.ends_with("drawn 172800000\nweighted 720000\nrange 16\nac 625000\n"));
    let most = 10_000_000_000_000;
    assert_eq!(line(&with_also(4, transfer(0, most)), "range"), "range 1929029");
    assert!(with_also(4, transfer(0, -most)).ends_with("refused 11\n"));
    assert_eq!(line(&with_also(5, transfer(1, most)), "ac"), "ac 8");
    assert!(with_also(5, transfer(1, -most)).ends_with("range 16\nrefused 14\n"));
    for far in [most + 1, -most - 1] {
        assert_eq!(with_also(4, transfer(0, far)), refused(14, 5));
        assert_eq!(with_also(5, transfer(1, far)), refused(14, 6));
    }
}
