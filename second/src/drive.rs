//! Driving: speeds near, at and beyond the edges of the band, speeds about the
//! set speed in M and E, and the voltage and current that go with them.

use crate::chance::Chance;
use crate::cycle::Gate;
use crate::draft::Draft;
use crate::write::Raw;

/// The least and greatest speed of the gate that a sample can have.
fn possible(gate: &Gate) -> (u16, u16) {
    let least = gate.least.clamp(0, 1500) as u16;
    let most = gate.most.clamp(0, 1500) as u16;
    (least, most)
}

/// A speed inside the band, often at its edge. Where no whole speed is
/// inside, the nearest one.
pub fn inside(chance: &mut Chance, gate: &Gate) -> u16 {
    let (least, most) = possible(gate);
    if most <= least {
        return least;
    }
    match chance.below(4) {
        0 => least,
        1 => most,
        _ => chance.between16(least, most),
    }
}

/// A speed in the middle of the band.
pub fn middle(gate: &Gate) -> u16 {
    let (least, most) = possible(gate);
    (least + most) / 2
}

/// A speed outside the band, mostly by one step only. Where every speed is
/// inside, some speed.
pub fn outside(chance: &mut Chance, gate: &Gate) -> u16 {
    let step = if chance.one_in(4) { chance.between16(1, 200) } else { 1 };
    let (least, most) = possible(gate);
    let below = least.checked_sub(step);
    let above = Some(most + step).filter(|speed| *speed <= 1500);
    match (below, above) {
        (Some(below), Some(above)) => chance.pick(&[below, above]),
        (Some(one), None) | (None, Some(one)) => one,
        (None, None) => chance.between16(0, 1500),
    }
}

/// A speed in M or E: the set speed, a little more, or a little less.
pub fn constant(chance: &mut Chance, draft: &Draft) -> u16 {
    let set_speed = draft.stretches.map_or(0, |stretches| stretches.set_speed.into());
    let [tolerance, ..] = draft.tolerances.map(i64::from);
    let beside = chance.pick(&[0, 0, 0, 1, 5, 20, -1, -tolerance, -tolerance - 1]);
    (set_speed + beside).clamp(0, 1500) as u16
}

/// Ways to draw and give back energy.
#[derive(Clone, Copy, Debug)]
pub enum Power {
    Steady,
    Regenerating,
    Braking,
    Tiny,
    Huge,
}

/// A usual power, or now and then an unusual one.
pub fn some_power(chance: &mut Chance) -> Power {
    use Power::{Braking, Huge, Regenerating, Steady, Tiny};
    chance.pick(&[Steady, Steady, Steady, Regenerating, Regenerating, Braking, Tiny, Huge])
}

/// A sample with the speed given.
pub fn sample(chance: &mut Chance, speed: u16, power: Power) -> Raw {
    let (voltage, current) = match power {
        Power::Steady => (chance.between(5500, 6500), chance.between(-400, -50)),
        Power::Regenerating => (chance.between(5000, 7000), chance.between(-300, 220)),
        Power::Braking => (chance.between(5000, 7000), chance.between(-100, 200)),
        Power::Tiny => (chance.between(0, 20), chance.between(-20, 5)),
        Power::Huge => (chance.pick(&[15000, 14999]), chance.pick(&[-10000, -9999, 10000, -5000])),
    };
    Raw { speed, voltage: voltage as u16, current: current as i16 }
}

/// Samples all inside the band where it judges them, as many as asked for.
pub fn drive_inside(chance: &mut Chance, draft: &Draft, count: usize, power: Power) -> Vec<Raw> {
    let gates = draft.gates();
    let mut samples = Vec::with_capacity(count);
    for at in 0..count {
        let speed = match draft.position_of(at) {
            Some(position) => inside(chance, &gates[position]),
            None => constant(chance, draft),
        };
        samples.push(sample(chance, speed, power));
    }
    samples
}

/// Samples of which about one in `rarity` is outside, or of any speed in M and E.
pub fn drive_mixed(
    chance: &mut Chance,
    draft: &Draft,
    count: usize,
    power: Power,
    rarity: usize,
) -> Vec<Raw> {
    let gates = draft.gates();
    let mut samples = drive_inside(chance, draft, count, power);
    for (at, one) in samples.iter_mut().enumerate() {
        if chance.one_in(rarity) {
            one.speed = match draft.position_of(at) {
                Some(position) => outside(chance, &gates[position]),
                None => chance.between16(0, 1500),
            };
        }
    }
    samples
}
