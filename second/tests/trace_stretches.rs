//! The trace of a shortened run: texts worked out by hand, on document 01's
//! example. An interval has 1,440,000 and 200, a cycle of 40 has 57,600,000 and
//! 8,000, so its rate is 720,000.

mod common;

use common::*;
use second::write::*;

/// Outside in a cycle; the product is 780,000.
const FAST: Raw = Raw { speed: 131, voltage: 6000, current: -130 };

/// The trace with M of so many samples, a set speed, allowance 0 and these samples.
fn shortened(length: u32, set_speed: u16, samples: &[Raw]) -> String {
    let mut fields = with_samples([30, 20, 0], samples);
    fields.insert(4, stretches(length, set_speed));
    trace_of(&fields)
}

/// 80 intervals of E with 169 + 79 × 138 = 11,071 of distance. Twice 1,000,000
/// before and twice 2,000,000 after: E = 347,040,000 + 2,000,000, n - 2 = 2, so
/// the weights are 2 × 57,600,000 and 349,040,000 - 115,200,000 over
/// 698,080,000. 5E / (72 × 720,000) is 33.7, and E × 10,000,000 /
/// ((E + 4,000,000) × 33) is 299,596.9.
const STOPPED_IN_E: &str = "run LTESTVEH000000001
method shortened 1 100
cycle 2 phases 2
tolerances 30 20 300
fields 10 blocks 2 passed 0
offered 245
end stop 241
stop stretch E
phase 1 1 energy 57600000 distance 8000 finished
cycle 1 energy 57600000 distance 8000 outside 0 finished rate 720000
phase 2 1 energy 57600000 distance 8000 finished
cycle 2 energy 57600000 distance 8000 outside 0 finished rate 720000
phase 3 1 energy 57600000 distance 8000 finished
cycle 3 energy 57600000 distance 8000 outside 0 finished rate 720000
phase 4 1 energy 57600000 distance 8000 finished
cycle 4 energy 57600000 distance 8000 outside 0 finished rate 720000
stretch M energy 1440000 distance 200 finished
stretch E energy 115200000 distance 11071 open
cycles 4
outside 0
drawn 347040000
transfer before 2000000 after 4000000
whole 349040000
weight 1 115200000 698080000
weight 2 115200000 698080000
weight 3 233840000 698080000
weight 4 233840000 698080000
weighted 720000
range 33
recharge 10
ac 299596
";

/// M is sample 80, E begins at 161. Its 80th too slow is sample 241.
#[test]
fn a_stop_in_e() {
    let too_slow = Raw { speed: 69, ..GOOD };
    let mut fields = start();
    fields.extend([stretches(1, 100), transfer(0, 1_000_000)]);
    fields.extend([block(OWN, 0, &[GOOD; 162]), block(OWN, 162, &[too_slow; 83])]);
    fields.extend([transfer(1, 2_000_000), recharge(10)]);
    assert_eq!(trace_of(&fields), STOPPED_IN_E);
}

/// M of 10 begins at sample 80. Its line stands where an interval of it is
/// closed; its last interval is closed by the first sample of cycle 3.
#[test]
fn the_run_ends_in_m_and_beside_it() {
    let rows = [
        (81, "", "drawn 115200000"),
        (82, "stretch M energy 1440000 distance 200 open\n", "drawn 116640000"),
        (85, "stretch M energy 5760000 distance 800 open\n", "drawn 120960000"),
        (90, "stretch M energy 12960000 distance 1800 open\n", "drawn 128160000"),
        (91, "stretch M energy 14400000 distance 2000 finished\n", "drawn 129600000"),
    ];
    for (offered, m, drawn) in rows {
        let trace = shortened(10, 500, &vec![GOOD; offered]);
        let expected = format!(
            "phase 2 1 energy 57600000 distance 8000 finished\n\
             cycle 2 energy 57600000 distance 8000 outside 0 finished rate 720000\n\
             {m}cycles 2\noutside 0\n{drawn}\n"
        );
        assert_eq!(from_to(&trace, "phase 2", "drawn"), expected);
    }
}

/// M stands behind all cycles.
#[test]
fn the_line_of_m_behind_cycle_3() {
    let expected = "cycle 2 energy 57600000 distance 8000 outside 0 finished rate 720000
phase 3 1 energy 1440000 distance 200 open
cycle 3 energy 1440000 distance 200 outside 0 open
stretch M energy 14400000 distance 2000 finished
cycles 2
";
    let trace = shortened(10, 500, &[GOOD; 92]);
    assert_eq!(from_to(&trace, "cycle 2 energy", "cycles"), expected);
    assert_eq!(line(&trace, "method"), "method shortened 10 500");
}

/// In M nothing is judged. The first sample of cycle 3 stops the run and closes
/// M. Cycle 2 has one fast end, 57,600,000 + 60,000 and 8,000 + 31, and so the
/// rate 717,967.87; M has ten intervals of 2 × 780,000 and 2 × 131.
#[test]
fn a_stop_behind_m() {
    let samples = [&[GOOD; 80][..], &[FAST; 11], &[GOOD]].concat();
    let expected = "end stop 90
stop cycle 3 position 0
phase 1 1 energy 57600000 distance 8000 finished
cycle 1 energy 57600000 distance 8000 outside 0 finished rate 720000
phase 2 1 energy 57660000 distance 8031 finished
cycle 2 energy 57660000 distance 8031 outside 0 finished rate 717967
cycle 3 energy 0 distance 0 outside 1 open
stretch M energy 15600000 distance 2620 finished
cycles 2
outside 1
drawn 130860000
transfer before 0 after 0
whole 130860000
refused 10
";
    assert!(shortened(10, 500, &samples).ends_with(expected));
}

/// E begins at 161; while none of its intervals is closed it has no line.
#[test]
fn e_with_and_without_an_interval() {
    let told = |offered| from_to(&shortened(1, 500, &vec![GOOD; offered]), "stretch", "cycles");
    let m = "stretch M energy 1440000 distance 200 finished";
    assert_eq!(told(161), format!("{m}\ncycles 3\n"));
    assert_eq!(told(162), format!("{m}\ncycles 4\n"));
    assert_eq!(told(163), format!("{m}\nstretch E energy 1440000 distance 200 open\ncycles 4\n"));
}

/// M and E that give energy back: M has nine intervals of -1,440,000 and a last
/// one of 0, E, which begins at 170, has one of -1,440,000.
#[test]
fn stretches_that_give_back() {
    let back = Raw { current: 120, ..GOOD };
    let mut samples = [GOOD; 172];
    samples[80..90].fill(back);
    samples[170..].fill(back);
    let expected = "stretch M energy -12960000 distance 2000 finished
stretch E energy -1440000 distance 200 open
cycles 4
";
    assert_eq!(from_to(&shortened(10, 500, &samples), "stretch", "cycles"), expected);
}

/// Three cycles and a part of the fourth are 10, whatever they have drawn.
#[test]
fn ten_with_three_cycles() {
    let trace = shortened(1, 500, &[GOOD; 161]);
    let expected = "cycles 3\noutside 0\ndrawn 230400000\ntransfer before 0 after 0\n\
                    whole 230400000\nrefused 10\n";
    assert!(trace.ends_with(expected));
}

/// The rates are e_c / 80. M has 9 × 1,000,000 + 900,000, E ten times
/// 1,200,000. Over 2 × 104,300,000 stand 2 e_1, 2 e_2 and twice 104,300,000 -
/// 40,200,000; W is 254,711.17, worked out in `stretches.rs`.
const WEIGHTS: &str = "end none 181
phase 1 1 energy 23900000 distance 8000 finished
cycle 1 energy 23900000 distance 8000 outside 0 finished rate 298750
phase 2 1 energy 16300000 distance 8000 finished
cycle 2 energy 16300000 distance 8000 outside 0 finished rate 203750
phase 3 1 energy 31700000 distance 8000 finished
cycle 3 energy 31700000 distance 8000 outside 0 finished rate 396250
phase 4 1 energy 8500000 distance 8000 finished
cycle 4 energy 8500000 distance 8000 outside 0 finished rate 106250
stretch M energy 9900000 distance 2000 finished
stretch E energy 12000000 distance 2000 open
cycles 4
outside 0
drawn 102300000
transfer before 2000000 after 4000000
whole 104300000
weight 1 47800000 208600000
weight 2 32600000 208600000
weight 3 64100000 208600000
weight 4 64100000 208600000
weighted 254711
range 28
recharge 10
ac 343951
";

/// A sample draws 300,000 in cycle 1, then 200,000, in M 500,000, then 400,000,
/// 100,000, in E 600,000; all speeds are 100.
#[test]
fn weights_that_differ() {
    let row = |times, voltage| vec![Raw { speed: 100, voltage, current: -100 }; times];
    let parts = [(40, 3000), (40, 2000), (10, 5000), (40, 4000), (40, 1000), (11, 6000)];
    let samples: Vec<Raw> = parts.into_iter().flat_map(|(times, v)| row(times, v)).collect();
    let mut fields = start();
    fields.extend([stretches(10, 100), transfer(0, 1_000_000), block(OWN, 0, &samples)]);
    fields.extend([transfer(1, 2_000_000), recharge(10)]);
    assert!(trace_of(&fields).ends_with(WEIGHTS));
}
