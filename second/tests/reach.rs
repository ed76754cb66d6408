//! What the small records reach: every answer, and the places that a word
//! pair alone does not show.

mod places;

use places::places;
use second::make::make;
use second::record::read;
use second::run::End;
use second::sheet::sheet;
use second::survey::answers_of;
use std::collections::{BTreeMap, BTreeSet};

/// As many as are compared.
const SEEDS: u64 = 8000;

/// Every answer a small record can have; 7 needs millions of samples.
const ANSWERS: [&str; 22] = [
    "end none",
    "end stop",
    "end limit",
    "ac absent",
    "ac 0",
    "ac figure above 0",
    "refused  2 field",
    "refused  3 field",
    "refused  4 field",
    "refused  5 field",
    "refused  6 field",
    "refused  8 field",
    "refused  9 field",
    "refused 14 field",
    "refused 15 field",
    "refused 19 field",
    "refused 10 after drawn",
    "refused 11 after drawn",
    "refused 12 after drawn",
    "refused 13 after drawn",
    "refused 12 after range",
    "refused 14 after range",
];

#[test]
fn every_answer_dozens_of_times() {
    let mut seen: BTreeMap<String, usize> = BTreeMap::new();
    for seed in 1..=SEEDS {
        for answer in answers_of(&sheet(&make("small", seed, &[]).unwrap())) {
            *seen.entry(answer).or_default() += 1;
        }
    }
    for answer in ANSWERS {
        let times = seen.get(answer).copied().unwrap_or(0);
        assert!(times >= 36, "{answer} came {times} times");
    }
    assert!(seen["range printed"] as u64 >= 2 * SEEDS / 5);
}

#[test]
fn the_time_tolerance_asked_for_and_no_stop() {
    for time in [0, 20, 40] {
        let record = read(&make("million", 1, &[200, 100_000, time]).unwrap()).unwrap();
        assert_eq!((record.tolerances.time, record.run().end), (time as i128, End::None));
    }
}

#[test]
fn every_place_is_reached() {
    let mut seen: BTreeMap<String, BTreeSet<u64>> = BTreeMap::new();
    for seed in 1..=SEEDS {
        for (shown, place) in places(&make("small", seed, &[]).unwrap()) {
            let seeds = seen.entry(place).or_default();
            if shown {
                seeds.insert(seed);
            }
        }
    }
    for (place, seeds) in &seen {
        println!("{:>8}  {place}", seeds.len());
    }
    for (place, seeds) in seen {
        assert!(seeds.len() >= 8, "{place} came {} times", seeds.len());
    }
}

/// Refusal 7 and its neighbours come in full records.
#[test]
fn full_records_bring_seven() {
    let answers: Vec<String> =
        (0..12).flat_map(|seed| answers_of(&sheet(&make("full", seed, &[]).unwrap()))).collect();
    for answer in ["refused  7 field", "refused  6 field", "refused  4 field", "refused  9 field"] {
        assert!(answers.iter().any(|one| one == answer), "{answer}");
    }
}

/// The shortened ones among them stop in E, or do not stop.
#[test]
fn long_records_of_the_shortened_method() {
    let (mut stops, mut none) = (0, 0);
    for seed in (4..=40).step_by(4) {
        let record = read(&make("long", seed, &[]).unwrap()).unwrap();
        let (run, stretches) = (record.run(), record.stretches.unwrap());
        let first_of_e = 4 * record.cycle.positions() as usize + stretches.length;
        stops += usize::from(run.end == End::Stop && run.counted > first_of_e);
        none += usize::from(run.end == End::None && run.finished.len() == 4);
    }
    assert!(stops >= 2 && none >= 2, "{stops} stops in E, {none} without a stop");
}

/// Half of the foreign blocks stand before field 8.
#[test]
fn foreign_records_of_both_methods() {
    for (seed, shortened, cycles) in [(1, false, 4), (2, true, 4)] {
        let record = read(&make("foreign", seed, &[1000]).unwrap()).unwrap();
        let run = record.run();
        assert_eq!((record.stretches.is_some(), record.passed), (shortened, 1000));
        assert_eq!((run.counted, run.finished.len()), (200, cycles));
    }
}

#[test]
fn long_records_reach_every_end() {
    let answers: Vec<String> =
        (1..=40).flat_map(|seed| answers_of(&sheet(&make("long", seed, &[]).unwrap()))).collect();
    for answer in ["end none", "end stop", "end limit", "range printed"] {
        assert!(answers.iter().filter(|one| *one == answer).count() >= 3, "{answer}");
    }
}
