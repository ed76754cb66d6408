//! Long records: 100,000 samples and more, speeds that follow the cycle with
//! a lag and some noise, runs that go on, stop, or reach the limit; and the
//! shortened method with long stretches.

use crate::chance::Chance;
use crate::draft::{sprinkle_foreign, Draft};
use crate::drive::{sample, Power};
use crate::shortened::{Stretches, SHORTENED_CYCLES};
use crate::write::Raw;

/// The long record of a seed; every fourth one is of the shortened method.
pub fn long(seed: u64) -> Vec<u8> {
    let chance = &mut Chance::new(seed);
    let (mut draft, count) =
        if seed.is_multiple_of(4) { shortened_draft(chance) } else { regular_draft(chance) };
    draft.samples = follow(chance, &draft, count);
    if chance.one_in(3) {
        leave_the_band(chance, &mut draft);
    }
    draft.add_usual_transfers(chance);
    draft.recharge = draft.recharge.map(|amount| amount * 1000);
    let mut fields = draft.fields(chance);
    let blocks = chance.pick(&[0, 1, 50]);
    sprinkle_foreign(chance, &mut fields, &draft.vehicle, blocks);
    fields.concat()
}

fn regular_draft(chance: &mut Chance) -> (Draft, usize) {
    let (seconds, count) = some_length(chance);
    (long_draft(chance, seconds), count)
}

/// Short cycles, and M and E as long as all of them together or longer.
fn shortened_draft(chance: &mut Chance) -> (Draft, usize) {
    let seconds = 100 + chance.below(200);
    let mut draft = long_draft(chance, seconds);
    let (length, set_speed) = (20_000 + chance.below(80_000), chance.between(300, 900) as i16);
    draft.stretches = Some(Stretches { length, set_speed });
    let count = draft.first_of(SHORTENED_CYCLES) + 50_000 + chance.below(100_000);
    (draft, count)
}

/// T and a number of samples: usual, T = 2400, or about 64 cycles and more.
fn some_length(chance: &mut Chance) -> (usize, usize) {
    match chance.below(5) {
        0 => (2400, 144_000 + chance.below(60_000)),
        1 | 2 => {
            let seconds = 80 + chance.below(30);
            let after = chance.below(5_000);
            (seconds, 64 * 20 * seconds - 1 + chance.pick(&[0, 1, 2, after, after, after]))
        }
        _ => (300 + chance.below(1200), 100_000 + chance.below(100_000)),
    }
}

/// A draft with a walking cycle and usual or wide tolerances.
pub fn long_draft(chance: &mut Chance, seconds: usize) -> Draft {
    let tolerances = if chance.one_in(2) {
        [30, 20, 300]
    } else {
        [chance.between16(5, 100), chance.between16(0, 40), chance.between16(50, 1200)]
    };
    let points = walk(chance, seconds);
    Draft::new(chance, points, tolerances)
}

/// Points that speed up, slow down and stand still, as a truck does.
fn walk(chance: &mut Chance, seconds: usize) -> Vec<u16> {
    let (mut speed, mut slope) = (0i64, 0i64);
    let mut points = Vec::with_capacity(seconds + 1);
    for _ in 0..=seconds {
        if chance.one_in(12) {
            slope = chance.pick(&[-40, -20, -5, 0, 5, 20, 30]);
        }
        speed = (speed + slope).clamp(0, 900);
        points.push(speed as u16);
    }
    points
}

/// Samples that follow the cycle with a fixed lag within the time tolerance
/// and noise within the speed tolerance, and leave the band now and then. In M
/// and E they follow the set speed.
pub fn follow(chance: &mut Chance, draft: &Draft, count: usize) -> Vec<Raw> {
    let targets = whole_targets(draft);
    let [tolerance, time, allowance] = draft.tolerances.map(i64::from);
    let lag = chance.between(0, time) as usize;
    let noise = (tolerance - 1).max(0);
    let mut excursion = Excursion { allowance, left: 0, spent: 0 };
    let set_speed = draft.stretches.map_or(0, |stretches| stretches.set_speed.into());
    let mut cruise = Cruise { set_speed, tolerance, now: 0, slow: 0 };
    let mut samples = Vec::with_capacity(count);
    for at in 0..count {
        let speed = match draft.position_of(at) {
            None => cruise.speed(chance),
            Some(position) => {
                let near = targets[position.saturating_sub(lag)] + chance.between(-noise, noise);
                if excursion.on(chance, position) {
                    away(near)
                } else {
                    near
                }
            }
        };
        samples.push(sample(chance, speed.clamp(0, 1500) as u16, Power::Regenerating));
    }
    samples
}

/// Leaving the band for a few samples, never for more of a cycle's samples
/// than the allowance.
struct Excursion {
    allowance: i64,
    left: i64,
    spent: i64,
}

impl Excursion {
    /// Is the sample at this position away from the band?
    fn on(&mut self, chance: &mut Chance, position: usize) -> bool {
        if position == 0 {
            (self.left, self.spent) = (0, 0);
        }
        if self.left == 0 && chance.one_in(3000) {
            self.left = chance.between(1, 50).min(self.allowance - self.spent);
        }
        if self.left == 0 {
            return false;
        }
        self.left -= 1;
        self.spent += 1;
        true
    }
}

/// Driving at a constant speed, with the pedal down until it is reached, and
/// slower for some samples now and then, seldom for 80 or more.
struct Cruise {
    set_speed: i64,
    tolerance: i64,
    now: i64,
    slow: i64,
}

impl Cruise {
    fn speed(&mut self, chance: &mut Chance) -> i64 {
        if self.slow == 0 && chance.one_in(4000) {
            self.slow = chance.between(1, 85);
        }
        self.now = (self.now + 3).min(self.set_speed);
        if self.slow > 0 {
            self.slow -= 1;
            return self.now - self.tolerance - chance.between(1, 20);
        }
        self.now + chance.between(-self.tolerance, self.tolerance)
    }
}

/// The target at every position, rounded to whole speeds.
fn whole_targets(draft: &Draft) -> Vec<i64> {
    let cycle = draft.cycle();
    (0..cycle.positions()).map(|place| (cycle.target(place) as i64 + 10) / 20).collect()
}

/// A speed far from the one meant; no window reaches so far.
fn away(speed: i64) -> i64 {
    if speed > 800 {
        speed - 500
    } else {
        speed + 500
    }
}

/// From some sample on, the vehicle is outside longer than the allowance.
fn leave_the_band(chance: &mut Chance, draft: &mut Draft) {
    let from = chance.below(draft.samples.len());
    let until = from + 2 * usize::from(draft.tolerances[2]) + 2;
    for one in draft.samples.iter_mut().take(until).skip(from) {
        one.speed = away(one.speed.into()) as u16;
    }
}
