//! A draft: a record in plain numbers, before it is written as fields.

use crate::chance::Chance;
use crate::cycle::{Cycle, Gate};
use crate::shortened::Stretches;
use crate::write::{block, head, recharge, stretches, transfer, Raw, Vehicle};

const CHARACTERS: &[u8] = b"0123456789ABCDEFGHJKLMNPRSTUVWXYZ";

/// A record in plain numbers. Fields can be left out by `None`; without
/// stretches the method is the regular one.
pub struct Draft {
    pub vehicle: Vehicle,
    pub phase_ends: Vec<u16>,
    pub points: Vec<u16>,
    pub tolerances: [u16; 3],
    pub stretches: Option<Stretches>,
    pub before: Option<i64>,
    pub samples: Vec<Raw>,
    pub after: Option<i64>,
    pub recharge: Option<u32>,
}

impl Draft {
    /// A draft with a cycle and tolerances, and nothing driven yet.
    pub fn new(chance: &mut Chance, points: Vec<u16>, tolerances: [u16; 3]) -> Draft {
        Draft {
            vehicle: some_vehicle(chance),
            phase_ends: some_phases(chance, points.len() - 1),
            points,
            tolerances,
            stretches: None,
            before: None,
            samples: Vec::new(),
            after: None,
            recharge: None,
        }
    }

    /// 20T.
    pub fn positions(&self) -> usize {
        20 * (self.points.len() - 1)
    }

    /// The number of the first sample of a cycle, counted from 0. What would be
    /// cycle 4 is E in the shortened method.
    pub fn first_of(&self, cycle: usize) -> usize {
        let m = self.stretches.filter(|_| cycle >= 2).map_or(0, |stretches| stretches.length);
        cycle * self.positions() + m
    }

    /// The position at which this sample stands; none in M and in E.
    pub fn position_of(&self, at: usize) -> Option<usize> {
        let shortened = self.stretches.is_some();
        let in_m = shortened && (2 * self.positions()..self.first_of(2)).contains(&at);
        let in_e = shortened && at >= self.first_of(4);
        let from = if at < self.first_of(2) { 0 } else { self.first_of(2) };
        (!in_m && !in_e).then(|| (at - from) % self.positions())
    }

    /// The draft's cycle, as the rules know it.
    pub fn cycle(&self) -> Cycle {
        Cycle {
            phase_ends: self.phase_ends.iter().map(|end| i128::from(*end)).collect(),
            points: self.points.iter().map(|point| i128::from(*point)).collect(),
        }
    }

    /// The least and greatest speed inside at every position.
    pub fn gates(&self) -> Vec<Gate> {
        let [speed, time, _] = self.tolerances;
        self.cycle().gate_table(speed.into(), time.into())
    }

    /// Transfers and recharge of usual size, each there or not.
    pub fn add_usual_transfers(&mut self, chance: &mut Chance) {
        if chance.one_in(3) {
            self.before = Some(chance.between(0, 5_000_000));
        }
        if chance.one_in(3) {
            self.after = Some(chance.between(-1_000_000, 5_000_000));
        }
        if !chance.one_in(4) {
            self.recharge = Some(chance.between(1, 60) as u32);
        }
    }

    /// All fields in order, the samples cut into blocks by chance.
    pub fn fields(&self, chance: &mut Chance) -> Vec<Vec<u8>> {
        let mut fields = head(&self.vehicle, &self.phase_ends, &self.points, self.tolerances);
        let field_8 = |one: Stretches| stretches(one.length as u32, one.set_speed as u16);
        fields.extend(self.stretches.map(field_8));
        fields.extend(self.before.map(|energy| transfer(0, energy)));
        fields.extend(self.blocks(chance));
        fields.extend(self.after.map(|energy| transfer(1, energy)));
        fields.extend(self.recharge.map(recharge));
        fields
    }

    fn blocks(&self, chance: &mut Chance) -> Vec<Vec<u8>> {
        let largest = chance.pick(&[1, 7, 40, 200, 200, 200]);
        let always_full = chance.one_in(2);
        let mut blocks = Vec::new();
        let mut first = 0;
        while first < self.samples.len() {
            let wanted = if always_full { largest } else { 1 + chance.below(largest) };
            let end = (first + wanted).min(self.samples.len());
            blocks.push(block(&self.vehicle, first as u32, &self.samples[first..end]));
            first = end;
        }
        blocks
    }
}

/// A vehicle number without a forbidden character.
pub fn some_vehicle(chance: &mut Chance) -> Vehicle {
    std::array::from_fn(|_| chance.pick(CHARACTERS))
}

/// A valid number that is not the own one; often it differs in one place only.
pub fn foreign_vehicle(chance: &mut Chance, own: &Vehicle) -> Vehicle {
    let mut other = if chance.one_in(2) { *own } else { some_vehicle(chance) };
    while other == *own {
        other[chance.below(17)] = chance.pick(CHARACTERS);
    }
    other
}

/// One to four phase ends for a cycle of T seconds.
pub fn some_phases(chance: &mut Chance, seconds: usize) -> Vec<u16> {
    let phases = 1 + chance.below(seconds.min(4));
    let inner = chance.some_of(phases - 1, seconds - 1);
    let mut ends: Vec<u16> = inner.iter().map(|second| *second as u16 + 1).collect();
    ends.push(seconds as u16);
    ends
}

/// A block of another truck: any first number, samples good or bad.
pub fn foreign_block(chance: &mut Chance, own: &Vehicle) -> Vec<u8> {
    let samples: Vec<Raw> = (0..1 + chance.below(5)).map(|_| any_sample(chance)).collect();
    let other = foreign_vehicle(chance, own);
    block(&other, chance.bits() as u32, &samples)
}

fn any_sample(chance: &mut Chance) -> Raw {
    let bits = chance.bits();
    Raw { speed: bits as u16, voltage: (bits >> 16) as u16, current: (bits >> 32) as i16 }
}

/// Puts foreign blocks between field 4 and the 6 after, where they may stand.
pub fn sprinkle_foreign(
    chance: &mut Chance,
    fields: &mut Vec<Vec<u8>>,
    own: &Vehicle,
    blocks: usize,
) {
    for _ in 0..blocks {
        let end = fields.iter().position(|field| ends_the_blocks(field)).unwrap_or(fields.len());
        let place = chance.between(4, end as i64) as usize;
        fields.insert(place, foreign_block(chance, own));
    }
}

/// Is it a 6 after or a 7?
fn ends_the_blocks(field: &[u8]) -> bool {
    field[0] == 7 || (field[0] == 6 && field[3] == 1)
}
