//! A run that was wished for comes out as wished.

use second::chance::Chance;
use second::cycle::Cycle;
use second::run::{End, Finished, Run, Sample, Tolerances};
use second::shortened::Stretches;
use second::wish::Wish;
use second::write::Raw;

fn some_wish(chance: &mut Chance, positions: usize) -> Wish {
    let most = Wish::most_distance(positions) as i64;
    let finished = (0..chance.below(6)).map(|_| {
        let energy = chance.pick(&[-5_000_000, -1, 0, 1, 2, 77_777, 400_000_000]);
        let distance = chance.pick(&[1, 2, 99, 100, 101, most - 1, most]);
        Finished { energy: energy + i128::from(chance.between(0, 1)), distance: distance.into() }
    });
    let finished = finished.collect();
    let open = chance.pick(&[0, 1, -1, 55_555, -1_200_000_000]);
    let m = chance.one_in(2).then(|| some_m(chance));
    let mut wish = Wish { finished, m, open, before: None, after: None, recharge: None };
    if wish.m.is_some() {
        wish.finished.truncate(4);
    }
    wish
}

fn some_m(chance: &mut Chance) -> (usize, Finished) {
    let length = chance.between(12, 30) as usize;
    let energy = chance.pick(&[-1_200_000_000, -1, 0, 1, 55_555, 400_000_000]);
    let distance = chance.between(200, Wish::most_distance(length) as i64);
    (length, Finished { energy, distance: distance.into() })
}

fn run(wish: &Wish, chance: &mut Chance, seconds: usize) -> Run {
    let cycle = Cycle { phase_ends: vec![seconds as i128], points: vec![0; seconds + 1] };
    let tolerances = Tolerances { speed: 100, time: 0, allowance: 0 };
    let good = |raw: &Raw| {
        let (speed, voltage) = (raw.speed as i16, raw.voltage as i16);
        Sample { speed, voltage, current: raw.current }
    };
    let samples: Vec<Sample> = wish.samples(chance, 20 * seconds).iter().map(good).collect();
    match wish.m {
        None => Run::drive(&cycle, &tolerances, &samples),
        Some((length, _)) => {
            let stretches = Stretches { length, set_speed: chance.between(1, 1500) as i16 };
            Run::drive_shortened(&cycle, &tolerances, &stretches, &samples)
        }
    }
}

#[test]
fn a_wish_comes_true() {
    let chance = &mut Chance::new(5);
    for _ in 0..2_000 {
        let seconds = chance.between(2, 4) as usize;
        let wish = some_wish(chance, 20 * seconds);
        let run = run(&wish, chance, seconds);
        assert_eq!((run.end, run.outside), (End::None, 0));
        assert_eq!((&run.finished, run.drawn), (&wish.finished, wish.energy()));
    }
}

/// A cycle that stands still, and an energy that the transfer alone cannot make.
#[test]
fn standing_still_and_an_odd_energy() {
    let chance = &mut Chance::new(6);
    for _ in 0..2_000 {
        let mut wish = some_wish(chance, 40);
        wish.finished.truncate(3);
        wish.finished.push(Finished { energy: 5, distance: 0 });
        let energy = chance.between(-1_000, 1_000).into();
        wish.set_energy(energy);
        let run = run(&wish, chance, 2);
        assert_eq!(run.finished.last(), wish.finished.last());
        assert_eq!(run.drawn + 2 * wish.before.unwrap(), energy);
        for (is, wished) in run.finished.iter().zip(&wish.finished) {
            assert_eq!(is.energy, wished.energy);
            assert!(wished.distance - is.distance <= 1 && is.distance <= wished.distance);
        }
    }
}
