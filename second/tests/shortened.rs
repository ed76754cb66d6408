//! The shortened method (document 02, L5): rows worked out by hand. T = 2 and
//! points all 100, so a cycle has 40 positions; s = 30, w = 20, allowance 0. M
//! has 10 samples unless said otherwise, so it begins at sample 80, cycle 3 at
//! 90, cycle 4 at 130 and E at 170.

use second::cycle::Cycle;
use second::run::{End, Finished, Run, Sample, Tolerances};
use second::shortened::Stretches;

/// Draws 1 at speed 100, inside the band.
const SLOW: Sample = Sample { speed: 100, voltage: 1, current: -1 };
/// Draws 10; outside.
const AWAY: Sample = Sample { speed: 1500, voltage: 1, current: -10 };

/// End, counted, closed, outside, drawn and the number of finished cycles.
type Told = (End, usize, usize, i128, i128, usize);

fn told(run: &Run) -> Told {
    (run.end, run.counted, run.closed, run.outside, run.drawn, run.finished.len())
}

/// The run with M of `length` samples, set speed u and speed tolerance s.
fn run_of(length: usize, set_speed: i16, s: i128, samples: &[Sample]) -> Run {
    let cycle = Cycle { phase_ends: vec![1, 2], points: vec![100; 3] };
    let tolerances = Tolerances { speed: s, time: 20, allowance: 0 };
    Run::drive_shortened(&cycle, &tolerances, &Stretches { length, set_speed }, samples)
}

/// The run with M of 10 and set speed 500.
fn run(samples: &[Sample]) -> Run {
    run_of(10, 500, 30, samples)
}

/// Samples that draw 1 at these speeds.
fn at(speeds: &[i16]) -> Vec<Sample> {
    speeds.iter().map(|speed| Sample { speed: *speed, ..SLOW }).collect()
}

/// `count` slow samples and these.
fn slow_and(count: usize, last: &[Sample]) -> Vec<Sample> {
    [&vec![SLOW; count][..], last].concat()
}

/// The run of four cycles and M, all slow, and an E of these rows: a speed and
/// how often it comes.
fn with_e(set_speed: i16, s: i128, rows: &[(i16, usize)]) -> Told {
    let e: Vec<i16> = rows.iter().flat_map(|(speed, times)| vec![*speed; *times]).collect();
    told(&run_of(10, set_speed, s, &slow_and(170, &at(&e))))
}

/// A run that goes on: all are counted, all intervals but the last are closed.
fn goes_on(offered: usize, finished: usize) -> Told {
    (End::None, offered, offered - 1, 0, 2 * (offered as i128 - 1), finished)
}

/// A stop in E: as many intervals are closed as samples are counted.
fn stop(counted: usize) -> Told {
    (End::Stop, counted, counted, 0, 2 * counted as i128, 4)
}

/// Just before, on and after each joint: a cycle is finished by the sample after it.
#[test]
fn the_run_ends_beside_each_joint() {
    let rows = [
        (39, 0),
        (40, 0),
        (41, 1),
        (79, 1),
        (80, 1),
        (81, 2),
        (89, 2),
        (90, 2),
        (91, 2),
        (129, 2),
        (130, 2),
        (131, 3),
        (169, 3),
        (170, 3),
        (171, 4),
        (172, 4),
    ];
    for (offered, finished) in rows {
        assert_eq!(told(&run(&vec![SLOW; offered])), goes_on(offered, finished));
    }
    assert_eq!(told(&run(&[])), (End::None, 0, 0, 0, 0, 0));
    assert_eq!(told(&run(&[SLOW])), goes_on(1, 0));
}

/// One sample of 10 at each place, all others draw 1: an interval with it has
/// 11 and belongs to the part of its earlier sample. M and E are in `drawn` and
/// in no cycle.
#[test]
fn intervals_at_the_joints() {
    let cycles_with = |at: usize| {
        let mut samples = vec![SLOW; 200];
        samples[at].current = -10;
        let run = run(&samples);
        assert_eq!((run.end, run.drawn), (End::None, 199 * 2 + if at == 0 { 9 } else { 18 }));
        run.finished.iter().map(|cycle| cycle.energy).collect::<Vec<i128>>()
    };
    assert_eq!(cycles_with(0), [89, 80, 80, 80]);
    assert_eq!(cycles_with(39), [98, 80, 80, 80]);
    assert_eq!(cycles_with(40), [89, 89, 80, 80]);
    assert_eq!(cycles_with(79), [80, 98, 80, 80]);
    assert_eq!(cycles_with(80), [80, 89, 80, 80]);
    assert_eq!(cycles_with(81), [80, 80, 80, 80]);
    assert_eq!(cycles_with(89), [80, 80, 80, 80]);
    assert_eq!(cycles_with(90), [80, 80, 89, 80]);
    assert_eq!(cycles_with(91), [80, 80, 98, 80]);
    assert_eq!(cycles_with(130), [80, 80, 89, 89]);
    assert_eq!(cycles_with(169), [80, 80, 80, 98]);
    assert_eq!(cycles_with(170), [80, 80, 80, 89]);
    assert_eq!(cycles_with(171), [80, 80, 80, 80]);
}

/// The distance of the cycle before M takes in M's first sample, that of M's
/// last interval cycle 3's first.
#[test]
fn distances_at_the_joints() {
    let mut samples = vec![SLOW; 171];
    samples[80].speed = 700;
    samples[89].speed = 900;
    let run = run(&samples);
    let cycle = |distance| Finished { energy: 80, distance };
    assert_eq!(run.finished, [cycle(8000), cycle(39 * 200 + 800), cycle(8000), cycle(8000)]);
}

/// In M nothing is judged, and in E nothing is outside.
#[test]
fn any_speed_in_m_and_e() {
    let mut samples = vec![SLOW; 300];
    samples[80..90].fill(AWAY);
    samples[170..].fill(AWAY);
    let drawn = 79 * 2 + 11 + 9 * 20 + 11 + 79 * 2 + 11 + 129 * 20;
    assert_eq!(told(&run(&samples)), (End::None, 300, 299, 0, drawn, 4));
}

/// A stop in each of the four cycles, by the first sample, one between and the
/// last: the interval before it is closed and has 11.
#[test]
fn stops_in_the_cycles() {
    let stops = |place: usize, finished: usize| {
        for behind in [0, 1, 300] {
            let run = run(&slow_and(place, &[&[AWAY], &vec![SLOW; behind][..]].concat()));
            let drawn = if place == 0 { 0 } else { 2 * (place as i128 - 1) + 11 };
            assert_eq!(told(&run), (End::Stop, place, place, 1, drawn, finished));
        }
    };
    for (place, finished) in [(0, 0), (20, 0), (39, 0), (40, 1), (60, 1), (79, 1)] {
        stops(place, finished);
    }
    for (place, finished) in [(90, 2), (100, 2), (129, 2), (130, 3), (150, 3), (169, 3)] {
        stops(place, finished);
    }
    assert_eq!(told(&run(&slow_and(80, &[AWAY]))), (End::None, 81, 80, 0, 79 * 2 + 11, 2));
    assert_eq!(told(&run(&slow_and(170, &[AWAY]))), (End::None, 171, 170, 0, 169 * 2 + 11, 4));
}

/// Outside samples are counted afresh in cycle 3, whatever M was like.
#[test]
fn the_allowance_is_of_one_cycle() {
    let cycle = Cycle { phase_ends: vec![2], points: vec![100; 3] };
    let tolerances = Tolerances { speed: 30, time: 20, allowance: 2 };
    let stretches = Stretches { length: 10, set_speed: 500 };
    let drive = |samples: &[Sample]| {
        let run = Run::drive_shortened(&cycle, &tolerances, &stretches, samples);
        (run.end, run.counted, run.outside)
    };
    let mut samples = vec![SLOW; 171];
    samples[78..92].fill(AWAY);
    assert_eq!(drive(&samples), (End::None, 171, 4));
    samples[92] = AWAY;
    assert_eq!(drive(&samples), (End::Stop, 92, 5));
}

/// The 80th too slow stops the run, the 79th does not: u = 500, s = 30, so 469
/// is too slow and 470 is not. The stopping sample is not counted.
#[test]
fn the_80th_too_slow() {
    assert_eq!(with_e(500, 30, &[(500, 1), (469, 79)]), goes_on(250, 4));
    assert_eq!(with_e(500, 30, &[(500, 1), (469, 80)]), stop(250));
    assert_eq!(with_e(500, 30, &[(500, 1), (469, 81)]), stop(250));
    assert_eq!(with_e(500, 30, &[(500, 1), (469, 80), (1500, 9)]), stop(250));
    assert_eq!(with_e(500, 30, &[(500, 1), (470, 200)]), goes_on(371, 4));
    assert_eq!(with_e(500, 30, &[(500, 1), (0, 80)]), stop(250));
}

/// 79, one that is not too slow, and then the count begins afresh.
#[test]
fn one_between_that_is_not_too_slow() {
    for held in [470, 499, 500, 1500] {
        let begin = [(500, 1), (469, 79), (held, 1)];
        let and = |times| with_e(500, 30, &[&begin[..], &[(469, times)]].concat());
        assert_eq!(and(79), goes_on(330, 4));
        assert_eq!(and(80), stop(330));
        assert_eq!(and(81), stop(330));
    }
}

/// The set speed is reached without the tolerance, and for good.
#[test]
fn before_and_after_it_is_reached() {
    assert_eq!(with_e(500, 30, &[(0, 200)]), goes_on(370, 4));
    assert_eq!(with_e(500, 30, &[(499, 1), (0, 200)]), goes_on(371, 4));
    assert_eq!(with_e(500, 30, &[(0, 100), (500, 1)]), goes_on(271, 4));
    assert_eq!(with_e(500, 30, &[(0, 100), (500, 1), (0, 79)]), goes_on(350, 4));
    assert_eq!(with_e(500, 30, &[(0, 100), (500, 1), (0, 80)]), stop(350));
    assert_eq!(with_e(500, 30, &[(0, 100), (501, 1), (480, 90), (0, 80)]), stop(440));
}

/// Reached in a cycle or in M, it is not reached in E; and the samples of cycle
/// 4 are not among the 80.
#[test]
fn reached_outside_e() {
    assert_eq!(with_e(100, 30, &[(0, 200)]), goes_on(370, 4));
    assert_eq!(with_e(100, 30, &[(100, 1), (0, 79)]), goes_on(250, 4));
    assert_eq!(with_e(100, 30, &[(100, 1), (0, 80)]), stop(250));
    let mut samples = slow_and(170, &at(&[0; 200]));
    samples[80..90].copy_from_slice(&at(&[1500; 10]));
    assert_eq!(told(&run(&samples)), goes_on(370, 4));
    assert_eq!(with_e(1500, 30, &[(1500, 1), (100, 79)]), goes_on(250, 4));
}

/// With s >= u no speed is too slow; with s one less only a stand is.
#[test]
fn the_tolerance_as_great_as_the_set_speed() {
    assert_eq!(with_e(30, 30, &[(30, 1), (0, 500)]), goes_on(671, 4));
    assert_eq!(with_e(1, 30, &[(1, 1), (0, 500)]), goes_on(671, 4));
    assert_eq!(with_e(31, 30, &[(31, 1), (1, 90)]), goes_on(261, 4));
    assert_eq!(with_e(31, 30, &[(31, 1), (0, 80)]), stop(250));
    assert_eq!(with_e(500, 0, &[(500, 1), (499, 80)]), stop(250));
}

/// Time tolerance and allowance have no part in E.
#[test]
fn time_tolerance_and_allowance_in_e() {
    let cycle = Cycle { phase_ends: vec![2], points: vec![100; 3] };
    let samples = slow_and(170, &at(&[&[500][..], &[469; 80]].concat()));
    for (time, allowance) in [(0, 0), (40, 0), (0, 1200), (40, 1200)] {
        let tolerances = Tolerances { speed: 30, time, allowance };
        let stretches = Stretches { length: 10, set_speed: 500 };
        let run = Run::drive_shortened(&cycle, &tolerances, &stretches, &samples);
        assert_eq!(told(&run), stop(250));
    }
}

/// m = 1: M is sample 80 alone, and E begins at 161.
#[test]
fn the_shortest_m() {
    let drive = |samples: &[Sample]| told(&run_of(1, 500, 30, samples));
    for (offered, finished) in [(80, 1), (81, 2), (82, 2), (121, 2), (122, 3), (161, 3), (162, 4)] {
        assert_eq!(drive(&vec![SLOW; offered]), goes_on(offered, finished));
    }
    let away = |place: usize| drive(&slow_and(place, &[AWAY]));
    assert_eq!(away(80), (End::None, 81, 80, 0, 79 * 2 + 11, 2));
    assert_eq!(away(81), (End::Stop, 81, 81, 1, 80 * 2 + 11, 2));
    assert_eq!(away(160), (End::Stop, 160, 160, 1, 159 * 2 + 11, 3));
    assert_eq!(away(161), (End::None, 162, 161, 0, 160 * 2 + 11, 4));
}

/// There is no limit: 64 cycles have 2560 samples.
#[test]
fn no_end_by_limit() {
    for offered in [2559, 2560, 2561, 2600, 9000] {
        assert_eq!(told(&run(&vec![SLOW; offered])), goes_on(offered, 4));
        let inside_m = run_of(4_000_000, 500, 30, &vec![SLOW; offered]);
        assert_eq!(told(&inside_m), goes_on(offered, 2));
    }
}

/// A wider speed tolerance keeps the stop or moves it later.
#[test]
fn a_wider_tolerance_stops_no_earlier() {
    let speeds: Vec<i16> = (0..400).map(|at| 500 - at).chain([0; 100]).collect();
    let samples = slow_and(170, &at(&speeds));
    for s in 30..=100 {
        let run = run_of(10, 400, s, &samples);
        let first = 500 - (400 - s as usize) + 1;
        assert_eq!(told(&run), stop(170 + first + 79), "tolerance {s}");
    }
}
