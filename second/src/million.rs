//! The largest records: millions of own samples, or millions of foreign blocks.

use crate::chance::Chance;
use crate::draft::{foreign_vehicle, Draft};
use crate::drive::{drive_inside, Power};
use crate::long::{follow, long_draft};
use crate::shortened::Stretches;
use crate::write::{block, head, recharge, stretches, transfer, Raw};

/// `count` samples that follow a cycle of 1800 seconds closely, in blocks of
/// `size`; the time tolerance is the one given or else the seed's. The run does
/// not stop; 64 cycles are 2,304,000 samples, and the one after them brings the limit.
pub fn million(seed: u64, size: usize, count: usize, time_tolerance: Option<u16>) -> Vec<u8> {
    let chance = &mut Chance::new(seed);
    let mut draft = long_draft(chance, 1800);
    draft.tolerances[1] = time_tolerance.unwrap_or(draft.tolerances[1]);
    let samples = follow(chance, &draft, count);
    let mut bytes = start(&draft);
    bytes.extend(transfer(0, 1_000_000));
    add_blocks(&mut bytes, &draft, &samples, 0, size);
    bytes.extend(transfer(1, 2_000_000));
    bytes.extend(recharge(200_000));
    bytes
}

/// A short own drive with `count` foreign blocks of one sample around it. An
/// even seed has the shortened method, and half of the foreign blocks stand
/// before its field 8.
pub fn foreign(seed: u64, count: usize) -> Vec<u8> {
    let chance = &mut Chance::new(seed);
    let points = vec![chance.between16(100, 900); 3];
    let mut draft = Draft::new(chance, points, [30, 20, 300]);
    let mut bytes = start(&draft);
    let (length, set_speed) = (20, 700);
    draft.stretches = seed.is_multiple_of(2).then_some(Stretches { length, set_speed });
    let samples = drive_inside(chance, &draft, 200, Power::Steady);
    add_foreign(chance, &mut bytes, &draft, count / 2);
    if draft.stretches.is_some() {
        bytes.extend(stretches(length as u32, set_speed as u16));
    }
    add_blocks(&mut bytes, &draft, &samples[..90], 0, 30);
    add_foreign(chance, &mut bytes, &draft, count - count / 2);
    add_blocks(&mut bytes, &draft, &samples[90..], 90, 30);
    bytes.extend(recharge(20));
    bytes
}

/// Fields 1 to 4 as bytes.
pub fn start(draft: &Draft) -> Vec<u8> {
    head(&draft.vehicle, &draft.phase_ends, &draft.points, draft.tolerances).concat()
}

/// Own blocks of `size` samples; the first sample has the number `first`.
pub fn add_blocks(bytes: &mut Vec<u8>, draft: &Draft, samples: &[Raw], first: usize, size: usize) {
    for (at, part) in samples.chunks(size).enumerate() {
        bytes.extend(block(&draft.vehicle, (first + at * size) as u32, part));
    }
}

/// Foreign blocks of one sample each, good or bad.
pub fn add_foreign(chance: &mut Chance, bytes: &mut Vec<u8>, draft: &Draft, count: usize) {
    let other = foreign_vehicle(chance, &draft.vehicle);
    for at in 0..count {
        let any = chance.bits();
        let one = Raw { speed: any as u16, voltage: (any >> 16) as u16, current: -100 };
        bytes.extend(block(&other, at as u32, &[one]));
    }
}
