//! The trace of a run: texts worked out by hand, on document 01's example. T = 2
//! unless said otherwise, so a cycle has 40 positions. An interval between two
//! of the example's samples has the energy 2 × 720,000 = 1,440,000 and the
//! distance 200; a cycle has 57,600,000 and 8,000, so its rate is 720,000.

mod common;

use common::*;
use second::trace::trace;
use second::write::*;

/// Outside the band of 70..130; the product is 780,000. An interval with one
/// such end has 60,000 more than the example's, and 31 more of distance.
const FAST: Raw = Raw { speed: 131, voltage: 6000, current: -130 };

/// `count` samples of the example and these.
fn good_and(count: usize, last: &[Raw]) -> Vec<Raw> {
    [&vec![GOOD; count][..], last].concat()
}

/// The trace with the allowance given and these samples, from `end` to `cycles`.
fn driven(allowance: u16, samples: &[Raw]) -> String {
    let trace = trace_of(&with_samples([30, 20, allowance], samples));
    from_to(&trace, "end", "cycles")
}

/// 120 intervals: E = 172,800,000, n - 2 = 1.
const OF_121: &str = "run LTESTVEH000000001
method regular
cycle 2 phases 2
tolerances 30 20 300
fields 6 blocks 1 passed 0
offered 121
end none 121
phase 1 1 energy 57600000 distance 8000 finished
cycle 1 energy 57600000 distance 8000 outside 0 finished rate 720000
phase 2 1 energy 57600000 distance 8000 finished
cycle 2 energy 57600000 distance 8000 outside 0 finished rate 720000
phase 3 1 energy 57600000 distance 8000 finished
cycle 3 energy 57600000 distance 8000 outside 0 finished rate 720000
cycles 3
outside 0
drawn 172800000
transfer before 0 after 0
whole 172800000
weight 1 57600000 172800000
weight 2 57600000 172800000
weight 3 57600000 172800000
weighted 720000
range 16
recharge 15
ac 937500
";

/// 119 intervals, 39 of them in cycle 3: 39 × 1,440,000 and 39 × 200.
const OF_120: &str = "run LTESTVEH000000001
method regular
cycle 2 phases 2
tolerances 30 20 300
fields 6 blocks 1 passed 0
offered 120
end none 120
phase 1 1 energy 57600000 distance 8000 finished
cycle 1 energy 57600000 distance 8000 outside 0 finished rate 720000
phase 2 1 energy 57600000 distance 8000 finished
cycle 2 energy 57600000 distance 8000 outside 0 finished rate 720000
phase 3 1 energy 56160000 distance 7800 open
cycle 3 energy 56160000 distance 7800 outside 0 open
cycles 2
outside 0
drawn 171360000
transfer before 0 after 0
whole 171360000
refused 10
";

#[test]
fn the_example() {
    assert_eq!(trace_of(&example()), OF_121);
    assert_eq!(trace_of(&example_of(120)), OF_120);
}

const UNDRIVEN: &str = "run LTESTVEH000000001
method regular
cycle 2 phases 2
tolerances 30 20 300
fields 4 blocks 0 passed 0
offered 0
end none 0
cycles 0
outside 0
drawn 0
transfer before 0 after 0
whole 0
refused 10
";

/// Nothing offered, and one sample: no interval is closed.
#[test]
fn no_sample_and_one_sample() {
    assert_eq!(trace_of(&start()), UNDRIVEN);
    let one = UNDRIVEN
        .replace("fields 4 blocks 0", "fields 5 blocks 1")
        .replace("offered 0", "offered 1")
        .replace("end none 0", "end none 1");
    assert_eq!(trace_of(&with_samples([30, 20, 300], &[GOOD])), one);
}

/// The 23 intervals of cycle 2 have three fast ends, two of them in its first
/// phase: 20 × 1,440,000 + 120,000 and 3 × 1,440,000 + 60,000 of energy,
/// 4,000 + 62 and 600 + 31 of distance.
const STOPPED: &str = "run LTESTVEH000000001
method regular
cycle 2 phases 1 2
tolerances 30 20 1
fields 5 blocks 1 passed 0
offered 69
end stop 63
stop cycle 2 position 23
phase 1 1 energy 28800000 distance 4000 finished
phase 1 2 energy 28800000 distance 4000 finished
cycle 1 energy 57600000 distance 8000 outside 0 finished rate 720000
phase 2 1 energy 28920000 distance 4062 finished
phase 2 2 energy 4380000 distance 631 open
cycle 2 energy 33300000 distance 4693 outside 2 open
cycles 1
outside 2
drawn 90900000
transfer before 0 after 0
whole 90900000
refused 10
";

/// Phases of one second. Samples 50 and 63 are outside, at positions 10 and 23
/// of cycle 2, and the second one is above the allowance of 1.
#[test]
fn a_stop_in_a_cycle() {
    let mut samples = vec![GOOD; 69];
    (samples[50], samples[63]) = (FAST, FAST);
    let mut fields = with_samples([30, 20, 1], &samples);
    fields[2] = cycle(&[1, 2], &[100; 3]);
    assert_eq!(trace_of(&fields), STOPPED);
}

/// The first sample of cycle 2 closes cycle 1, which has one fast end:
/// 57,660,000 and 8,031, and 100 × 57,660,000 / 8,031 is 717,967.87. Of cycle 2
/// no interval is closed. With an allowance of 1 it is the same without a stop.
#[test]
fn a_stop_at_the_first_position() {
    let samples = good_and(40, &[FAST]);
    let cycles = "phase 1 1 energy 57660000 distance 8031 finished
cycle 1 energy 57660000 distance 8031 outside 0 finished rate 717967
cycle 2 energy 0 distance 0 outside 1 open
cycles 1
";
    assert_eq!(driven(0, &samples), format!("end stop 40\nstop cycle 2 position 0\n{cycles}"));
    assert_eq!(driven(1, &samples), format!("end none 41\n{cycles}"));
    let trace = trace_of(&with_samples([30, 20, 0], &samples));
    let behind = "cycles 1\noutside 1\ndrawn 57660000\ntransfer before 0 after 0\nwhole 57660000\n";
    assert!(trace.ends_with(&format!("{behind}refused 10\n")));
}

/// The very first sample stops the run, or is outside and the only one.
#[test]
fn a_cycle_with_nothing_closed() {
    let cycle = "cycle 1 energy 0 distance 0 outside 1 open\ncycles 0\n";
    let stopped = format!("end stop 0\nstop cycle 1 position 0\n{cycle}");
    assert_eq!(driven(0, &[FAST]), stopped);
    assert_eq!(driven(0, &[FAST, GOOD]), stopped);
    assert_eq!(driven(1, &[FAST]), format!("end none 1\n{cycle}"));
}

/// Of 40 intervals 39 are closed, the last with a fast end: 56,160,000 + 60,000
/// and 7,800 + 31.
#[test]
fn a_stop_at_the_last_position() {
    let expected = "end stop 39
stop cycle 1 position 39
phase 1 1 energy 56220000 distance 7831 open
cycle 1 energy 56220000 distance 7831 outside 1 open
cycles 0
";
    assert_eq!(driven(0, &good_and(39, &[FAST])), expected);
}

/// The example's fields 1 to 4 and so many samples in blocks of 200.
fn long(samples: usize) -> Vec<Vec<u8>> {
    let mut fields = start();
    for first in (0..samples).step_by(200) {
        let count = (samples - first).min(200);
        fields.push(block(OWN, first as u32, &vec![GOOD; count]));
    }
    fields
}

/// 64 cycles of 40 samples, and one more, which brings the limit. E = 64 ×
/// 57,600,000 = 3,686,400,000; E × 62 = 228,556,800,000; 62 × 57,600,000 and E
/// less two cycles are both 3,571,200,000. 5E / (72 × 720,000) is 355.5.
#[test]
fn the_limit() {
    let whole = "energy 57600000 distance 8000";
    let cycle = |c: usize| {
        format!("phase {c} 1 {whole} finished\ncycle {c} {whole} outside 0 finished rate 720000\n")
    };
    let cycles: String = (1..=64).map(cycle).collect();
    let weights: String =
        (1..=64).map(|c| format!("weight {c} 3571200000 228556800000\n")).collect();
    let expected = format!(
        "fields 17 blocks 13 passed 0\noffered 2561\nend limit 2560\n{cycles}cycles 64\noutside 0\n\
         drawn 3686400000\ntransfer before 0 after 0\nwhole 3686400000\n{weights}weighted 720000\n\
         range 355\nrecharge -\nac -\n"
    );
    assert!(trace_of(&long(2561)).ends_with(&expected));
}

/// With one sample less the last interval is open.
#[test]
fn one_sample_short_of_the_limit() {
    let trace = trace_of(&long(2560));
    let expected = "phase 64 1 energy 56160000 distance 7800 open
cycle 64 energy 56160000 distance 7800 outside 0 open
cycles 63
";
    assert_eq!(from_to(&trace, "phase 64", "cycles"), expected);
    assert!(trace.contains("offered 2560\nend none 2560\nphase 1 1 "));
}

/// T = 3, phases of 20 and 40 positions; sample 20 draws 780,000 at speed 110,
/// inside: an interval with it has 1,500,000 and 210.
fn two_phases(offered: usize) -> String {
    let mut samples = vec![GOOD; offered];
    samples.iter_mut().skip(20).take(1).for_each(|one| *one = Raw { speed: 110, ..FAST });
    let mut fields = with_samples([30, 20, 0], &samples);
    fields[2] = cycle(&[1, 3], &[100; 4]);
    from_to(&trace_of(&fields), "phase", "cycles")
}

/// The interval over a joint belongs to the phase before it: 19 intervals of
/// 1,440,000, then one of 1,500,000, then another in phase 2.
#[test]
fn the_joint_of_two_phases() {
    let open = "phase 1 1 energy 27360000 distance 3800 open
cycle 1 energy 27360000 distance 3800 outside 0 open
cycles 0
";
    let closed = "phase 1 1 energy 28860000 distance 4010 finished
cycle 1 energy 28860000 distance 4010 outside 0 open
cycles 0
";
    let next = "phase 1 1 energy 28860000 distance 4010 finished
phase 1 2 energy 1500000 distance 210 open
cycle 1 energy 30360000 distance 4220 outside 0 open
cycles 0
";
    assert_eq!([20, 21, 22].map(two_phases), [open, closed, next]);
}

/// Phase 2 has 1,500,000 + 38 × 1,440,000, then one interval more; the rate of
/// the cycle is 100 × 86,520,000 / 12,020 = 719,800.3.
#[test]
fn the_last_phase_and_the_next_cycle() {
    let open = "phase 1 1 energy 28860000 distance 4010 finished
phase 1 2 energy 56220000 distance 7810 open
cycle 1 energy 85080000 distance 11820 outside 0 open
cycles 0
";
    let closed = "phase 1 1 energy 28860000 distance 4010 finished
phase 1 2 energy 57660000 distance 8010 finished
cycle 1 energy 86520000 distance 12020 outside 0 finished rate 719800
cycles 1
";
    let next = "phase 1 1 energy 28860000 distance 4010 finished
phase 1 2 energy 57660000 distance 8010 finished
cycle 1 energy 86520000 distance 12020 outside 0 finished rate 719800
phase 2 1 energy 1440000 distance 200 open
cycle 2 energy 1440000 distance 200 outside 0 open
cycles 1
";
    assert_eq!([60, 61, 62].map(two_phases), [open, closed, next]);
}

/// Four phases, the third of them open with 14 intervals.
#[test]
fn four_phases() {
    let mut fields = with_samples([30, 20, 0], &[GOOD; 55]);
    fields[2] = cycle(&[1, 2, 3, 5], &[100; 6]);
    let trace = trace_of(&fields);
    assert_eq!(line(&trace, "cycle"), "cycle 5 phases 1 2 3 5");
    let expected = "phase 1 1 energy 28800000 distance 4000 finished
phase 1 2 energy 28800000 distance 4000 finished
phase 1 3 energy 20160000 distance 2800 open
cycle 1 energy 77760000 distance 10800 outside 0 open
cycles 0
";
    assert_eq!(from_to(&trace, "phase", "cycles"), expected);
}

/// Twins: blocks of another vehicle are accepted fields, and nothing else
/// changes. There are three own blocks.
#[test]
fn blocks_passed_over() {
    let foreign = block(OTHER, 7, &[BAD]);
    let mut fields = start();
    fields.extend([foreign.clone(), block(OWN, 0, &[GOOD; 60]), foreign.clone()]);
    fields.extend([block(OWN, 60, &[GOOD]), block(OWN, 61, &[GOOD; 60]), foreign, recharge(15)]);
    let counts = ["fields 6 blocks 1 passed 0", "fields 11 blocks 3 passed 3"];
    assert_eq!(trace_of(&fields), OF_121.replace(counts[0], counts[1]));
}

/// A refused field gives the sheet's own line and nothing else.
#[test]
fn a_refused_field() {
    assert_eq!(trace(&[]), refused(15, 1));
    let mut fields = example();
    fields[3] = tolerances([30, 20, 1201]);
    assert_eq!(trace_of(&fields), refused(3, 4));
    let mut fields = example();
    fields.push(block(OTHER, 0, &[GOOD]));
    assert_eq!(trace_of(&fields), refused(9, 7));
    fields[6] = vec![7, 0];
    assert_eq!(trace_of(&fields), refused(15, 7));
}
