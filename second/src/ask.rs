//! Making bench questions from a seed: near the edges of the band often,
//! and with every fault alone and together with others.

use crate::bench::Question;
use crate::chance::Chance;
use crate::cycle::Cycle;
use crate::draft::some_phases;
use crate::drive::{inside, outside};
use crate::faults::spoil_cycle;
use crate::small::{some_points, some_tolerances};
use crate::write::{cycle_value, field};

/// A file of questions.
pub fn questions(count: usize, seed: u64) -> Vec<u8> {
    let chance = &mut Chance::new(seed);
    (0..count).flat_map(|_| some_question(chance).to_bytes()).collect()
}

/// One question: a good one, then perhaps up to three faults.
fn some_question(chance: &mut Chance) -> Question {
    let mut question = good_question(chance);
    for _ in 0..chance.pick(&[0, 0, 0, 0, 1, 1, 2, 3]) {
        spoil(chance, &mut question);
    }
    question
}

fn good_question(chance: &mut Chance) -> Question {
    let value = some_cycle(chance);
    let cycle = Cycle::from_bytes(&value).expect("a good cycle was made");
    let [speed_tolerance, time_tolerance, allowance] = some_tolerances(chance).map(u32::from);
    let position = some_position(chance, cycle.positions() as u32);
    let band = cycle.band_by_walking(position.into(), time_tolerance.into());
    let gate = band.gate(speed_tolerance.into());
    let speed = match chance.below(5) {
        0 => chance.between16(0, 1500),
        1 | 2 => inside(chance, &gate),
        _ => outside(chance, &gate),
    };
    let speed = u32::from(speed);
    Question { cycle: value, speed_tolerance, time_tolerance, allowance, position, speed }
}

/// Mostly short cycles, some long ones, a few of the greatest length.
fn some_cycle(chance: &mut Chance) -> Vec<u8> {
    let seconds = match chance.below(100) {
        0 => 2400,
        1..=5 => chance.between(9, 300) as usize,
        _ => chance.between(2, 8) as usize,
    };
    let points = some_points(chance, seconds, 0, 1500);
    cycle_value(&some_phases(chance, seconds), &points)
}

/// Any position, often one at an end of the cycle or beside a whole second.
fn some_position(chance: &mut Chance, positions: u32) -> u32 {
    let any = chance.below(positions as usize) as u32;
    match chance.below(6) {
        0 => 0,
        1 => positions - 1,
        2 => any / 20 * 20,
        3 => any / 20 * 20 + 19,
        _ => any,
    }
}

/// One fault: in the cycle's bytes, a tolerance, the position or the speed.
fn spoil(chance: &mut Chance, question: &mut Question) {
    let far = chance.pick(&[u32::MAX, 1 << 31, 65536, 65536 + 20, 100_000]);
    match chance.below(8) {
        0 => spoil_bytes(chance, question),
        1 => question.speed_tolerance = chance.pick(&[101, far]),
        2 => question.time_tolerance = chance.pick(&[41, far]),
        3 => question.allowance = chance.pick(&[1201, far]),
        4 | 5 => {
            let positions = Cycle::from_bytes(&question.cycle).map_or(40, |c| c.positions());
            question.position = chance.pick(&[positions as u32, positions as u32 + 1, far]);
        }
        _ => question.speed = chance.pick(&[1501, far]),
    }
}

fn spoil_bytes(chance: &mut Chance, question: &mut Question) {
    let mut bytes = question.cycle.clone();
    match chance.below(5) {
        0 => bytes.truncate(chance.below(bytes.len().max(1))),
        1 => bytes = cycle_value(&[1], &[100, 100]),
        2 => bytes = cycle_value(&[1, 2, 3, 2401], &vec![100; 2402]),
        _ if bytes.len() >= 9 => {
            let mut one = field(3, &bytes);
            spoil_cycle(chance, &mut one);
            bytes = one[3..].to_vec();
        }
        _ => bytes.push(0),
    }
    question.cycle = bytes;
}
