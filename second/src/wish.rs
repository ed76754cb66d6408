//! A run wished for: cycles whose energies and distances are given exactly,
//! and samples that bring them about.
//!
//! Each end of an interval adds to it (document 02, L2), so a cycle has its
//! samples twice, but its first sample and the one after its last only once:
//! each of these is a joint, which two cycles share. The same holds of M, which
//! stands between two cycles, and of E.

use crate::chance::Chance;
use crate::run::Finished;
use crate::write::Raw;

/// Drawn energy of one sample at most, either way.
const MOST_DRAWN: i128 = 150_000_000;
/// No sample is faster, so that all are inside where the points are 0 and the
/// speed tolerance is 100.
const MOST_SPEED: i128 = 100;

/// Energy and distance of so many intervals.
#[derive(Clone, Copy)]
struct Part {
    all: Finished,
    intervals: usize,
}

/// Finished cycles, the energy of the open one or of E, and the transfers as
/// they stand in field 6. In the shortened method also the length of M, and
/// what M has once cycle 2 is finished.
pub struct Wish {
    pub finished: Vec<Finished>,
    pub m: Option<(usize, Finished)>,
    pub open: i128,
    pub before: Option<i128>,
    pub after: Option<i128>,
    pub recharge: Option<u32>,
}

impl Wish {
    /// E: all closed intervals and the transfer before the test, doubled.
    pub fn energy(&self) -> i128 {
        let closed: i128 = self.parts(0).iter().map(|part| part.all.energy).sum();
        closed + self.open + 2 * self.before.unwrap_or(0)
    }

    /// The finished cycles, and M where it is driven.
    fn parts(&self, positions: usize) -> Vec<Part> {
        let cycle = |all: &Finished| Part { all: *all, intervals: positions };
        let mut parts: Vec<Part> = self.finished.iter().map(cycle).collect();
        if let Some((intervals, all)) = self.m.filter(|_| parts.len() >= 2) {
            parts.insert(2, Part { all, intervals });
        }
        parts
    }

    /// E + F.
    pub fn sum(&self) -> i128 {
        self.energy() + 2 * self.after.unwrap_or(0)
    }

    /// e_1 + e_2.
    pub fn first_two(&self) -> i128 {
        self.finished[0].energy + self.finished[1].energy
    }

    /// Makes E this energy by the transfer before the test. That is doubled,
    /// so an odd unit comes from the open cycle or E.
    pub fn set_energy(&mut self, energy: i128) {
        let missing = energy - self.energy();
        self.before = Some(self.before.unwrap_or(0) + missing.div_euclid(2));
        self.open += missing.rem_euclid(2);
    }

    /// The greatest distance that so many intervals can have whatever the joints are.
    pub fn most_distance(intervals: usize) -> i128 {
        2 * MOST_SPEED * (intervals as i128 - 1)
    }

    /// Samples for the wish. The last one closes the interval before it.
    pub fn samples(&self, chance: &mut Chance, positions: usize) -> Vec<Raw> {
        let (mut samples, parts) = (Vec::new(), self.parts(positions));
        let (odd, speed) = (chance.one_in(2), chance.between(0, room(&parts, 0) as i64));
        let mut joint = some_sample(chance, odd, speed.into());
        for (at, part) in parts.iter().enumerate() {
            let next = joint_after(chance, &joint, &part.all, room(&parts, at + 1));
            samples.extend(lap(&joint, part, &next));
            joint = next;
        }
        if self.open != 0 {
            let distance = i128::from(joint.speed) + i128::from(chance.between(0, 300));
            let all = Finished { energy: self.open, distance };
            let next = joint_after(chance, &joint, &all, MOST_SPEED);
            let intervals = chance.between(12, positions as i64 - 1) as usize;
            samples.extend(lap(&joint, &Part { all, intervals }, &next));
            joint = next;
        }
        samples.push(joint);
        samples
    }
}

/// The greatest speed that the first sample of this part may have.
fn room(parts: &[Part], at: usize) -> i128 {
    parts.get(at).map_or(MOST_SPEED, |part| part.all.distance.min(MOST_SPEED))
}

fn drawn(sample: &Raw) -> i128 {
    -(i128::from(sample.voltage) * i128::from(sample.current))
}

/// Some sample of this speed whose drawn energy is odd or even as asked for.
fn some_sample(chance: &mut Chance, odd: bool, speed: i128) -> Raw {
    let (voltage, current) = (chance.between16(0, 7000), chance.between(-150, 150) as i16);
    let speed = speed as u16;
    if odd {
        Raw { speed, voltage: voltage | 1, current: current | 1 }
    } else {
        Raw { speed, voltage: voltage & !1, current }
    }
}

/// The joint after a part: what it and the joint before leave of the part's
/// energy and distance is even, for the samples between count twice. Only
/// before a cycle that stands still the distance may come out one less.
fn joint_after(chance: &mut Chance, joint: &Raw, all: &Finished, room: i128) -> Raw {
    let odd = (all.energy - drawn(joint)).rem_euclid(2) == 1;
    let left = all.distance - i128::from(joint.speed);
    let most = left.min(room);
    let least = (left % 2).min(most);
    let steps = chance.between(0, (most - least) as i64 / 2);
    some_sample(chance, odd, least + 2 * i128::from(steps))
}

/// The samples of a part, from its first joint on, without the next joint.
/// The energy and distance of all intervals are those of the part.
fn lap(joint: &Raw, part: &Part, next: &Raw) -> Vec<Raw> {
    let all = &part.all;
    let half = (all.energy - drawn(joint) - drawn(next)) / 2;
    let mut distance = (all.distance - i128::from(joint.speed) - i128::from(next.speed)) / 2;
    let (mut energy, sign) = (half.abs(), if half < 0 { 1 } else { -1 });
    let mut samples = vec![*joint];
    for _ in 1..part.intervals {
        let speed = distance.min(MOST_SPEED);
        let (voltage, current) = largest_part(energy);
        samples.push(Raw {
            speed: speed as u16,
            voltage: voltage as u16,
            current: (sign * current) as i16,
        });
        distance -= speed;
        energy -= voltage * current;
    }
    samples
}

/// Voltage and current of one sample that takes as much of an energy as it can.
fn largest_part(energy: i128) -> (i128, i128) {
    if energy >= 10_000 {
        (energy.min(MOST_DRAWN) / 10_000, 10_000)
    } else {
        (energy, 1)
    }
}
