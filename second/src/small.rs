//! Small records: a mix, by seed, of good records, joints, stops, limits,
//! stretches, corners of the closing, planted faults and broken bytes. Of every
//! kind some are of the shortened method.

use crate::breakage::break_bytes;
use crate::brink::{brink, limit, stop_at_joint};
use crate::chance::Chance;
use crate::corners::corner;
use crate::draft::{sprinkle_foreign, Draft};
use crate::drive::{drive_inside, drive_mixed, outside, some_power, Power};
use crate::faults::{crowd, plant_some};
use crate::shortened::{Stretches, MOST_OF_M, SHORTENED_CYCLES};
use crate::slowing::slowing;

/// The small record of a seed.
pub fn small(seed: u64) -> Vec<u8> {
    let chance = &mut Chance::new(seed);
    match chance.below(100) {
        0..=6 => plain(chance).concat(),
        7..=17 => joint(chance).concat(),
        18..=21 => mixed(chance).concat(),
        22..=30 => brink(chance).concat(),
        31..=35 => stop_at_joint(chance).concat(),
        36..=39 => limit(chance).concat(),
        40..=51 => slowing(chance).concat(),
        52..=75 => corner(chance).concat(),
        76..=91 => faulty(chance).concat(),
        92..=95 => crowded(chance).concat(),
        _ => broken(chance),
    }
}

/// A good record that finishes three cycles and more, or the four of the
/// shortened method: a sample follows the last position. The longest M has no
/// end in it.
fn plain(chance: &mut Chance) -> Vec<Vec<u8>> {
    let mut draft = small_draft(chance, 200, 1000);
    let cycles = match draft.stretches {
        Some(_) => SHORTENED_CYCLES,
        None => chance.between(3, 6) as usize,
    };
    let count = draft.first_of(cycles).min(1000) + 1 + chance.below(40);
    draft.samples = drive_inside(chance, &draft, count, Power::Steady);
    written(chance, draft)
}

/// The samples end at a joint: with the last sample before it or the first one
/// after it, or beside these. Now and then the last sample is outside.
fn joint(chance: &mut Chance) -> Vec<Vec<u8>> {
    let (joint, mut draft) =
        if chance.below(5) < 2 { regular_joint(chance) } else { shortened_joint(chance) };
    let count = (joint + chance.pick(&[0, 0, 1, 1, 1, 2, 2, 2, 3, 3])).saturating_sub(1);
    let power = some_power(chance);
    draft.samples = drive_inside(chance, &draft, count, power);
    perhaps_last_outside(chance, &mut draft);
    written(chance, draft)
}

/// Puts the last sample outside once in three times, if it stands in a cycle.
fn perhaps_last_outside(chance: &mut Chance, draft: &mut Draft) {
    let last = draft.samples.len().checked_sub(1);
    let position = last.and_then(|last| draft.position_of(last));
    if let (Some(last), Some(position)) = (last, position) {
        if chance.one_in(3) {
            draft.samples[last].speed = outside(chance, &draft.gates()[position]);
        }
    }
}

/// A joint of two phases or two cycles. The first one is the start.
fn regular_joint(chance: &mut Chance) -> (usize, Draft) {
    let draft = regular_draft(chance, 200, 1000);
    let mut joint = draft.first_of(chance.pick(&[0, 1, 3, 3]));
    if chance.one_in(2) {
        joint += 20 * usize::from(chance.pick(&draft.phase_ends));
    }
    (joint, draft)
}

/// The joints of cycles 1 and 2, of cycle 2 and M, of M and cycle 3, of cycles 3
/// and 4, of cycle 4 and E; now and then the end of a cycle's first phase, or
/// the start.
fn shortened_joint(chance: &mut Chance) -> (usize, Draft) {
    let mut draft = regular_draft(chance, 200, 1000);
    draft.stretches = Some(short_stretches(chance, draft.positions()));
    let cycle = chance.below(SHORTENED_CYCLES);
    let joint = match chance.below(14) {
        0 | 1 => 0,
        2 | 3 => draft.first_of(2),
        4..=7 => draft.first_of(cycle) + 20 * usize::from(draft.phase_ends[0]),
        _ => draft.first_of(cycle) + draft.positions(),
    };
    (joint, draft)
}

/// Any speeds, any power, some samples outside.
fn mixed(chance: &mut Chance) -> Vec<Vec<u8>> {
    let mut draft = small_draft(chance, 0, 1500);
    let count = 2 * draft.positions() + chance.below(5 * draft.positions());
    let power = some_power(chance);
    let rarity = chance.pick(&[2, 10, 30, 100]);
    draft.samples = drive_mixed(chance, &draft, count, power, rarity);
    written(chance, draft)
}

/// A record with one or more planted faults.
fn faulty(chance: &mut Chance) -> Vec<Vec<u8>> {
    let (mut fields, own) = base(chance);
    plant_some(chance, &mut fields, &own);
    fields
}

/// A record with one field that has several faults at once.
fn crowded(chance: &mut Chance) -> Vec<Vec<u8>> {
    let (mut fields, _) = base(chance);
    crowd(chance, &mut fields);
    fields
}

/// A record with broken bytes.
fn broken(chance: &mut Chance) -> Vec<u8> {
    let (fields, _) = base(chance);
    break_bytes(chance, &fields.concat())
}

/// A good record for faults and breakage, with its vehicle number.
fn base(chance: &mut Chance) -> (Vec<Vec<u8>>, [u8; 17]) {
    let mut draft = small_draft(chance, 100, 1000);
    let count = 1 + chance.below(4 * draft.positions());
    draft.samples = drive_mixed(chance, &draft, count, Power::Steady, 50);
    let own = draft.vehicle;
    (written(chance, draft), own)
}

/// A draft of the regular method, or once in three times of the shortened one.
fn small_draft(chance: &mut Chance, least: u16, most: u16) -> Draft {
    let mut draft = regular_draft(chance, least, most);
    if chance.one_in(3) {
        draft.stretches = Some(some_stretches(chance, draft.positions()));
    }
    draft
}

fn regular_draft(chance: &mut Chance, least: u16, most: u16) -> Draft {
    let seconds = chance.between(2, 8) as usize;
    let points = some_points(chance, seconds, least, most);
    let tolerances = some_tolerances(chance);
    Draft::new(chance, points, tolerances)
}

/// Adds transfers and a few foreign blocks, and writes the fields.
pub fn written(chance: &mut Chance, mut draft: Draft) -> Vec<Vec<u8>> {
    draft.add_usual_transfers(chance);
    let mut fields = draft.fields(chance);
    if chance.one_in(3) {
        let blocks = 1 + chance.below(4);
        sprinkle_foreign(chance, &mut fields, &draft.vehicle, blocks);
    }
    fields
}

/// Points of several kinds: level, two levels, any, or a walk.
pub fn some_points(chance: &mut Chance, seconds: usize, least: u16, most: u16) -> Vec<u16> {
    let (one, two) = (chance.between16(least, most), chance.between16(least, most));
    let mut now = i64::from(one);
    (0..=seconds)
        .map(|second| match usize::from(one) % 4 {
            0 => one,
            1 => [one, two][second % 2],
            2 => chance.between16(least, most),
            _ => {
                now = (now + chance.between(-60, 60)).clamp(least.into(), most.into());
                now as u16
            }
        })
        .collect()
}

/// Any stretches, the longest M among them.
fn some_stretches(chance: &mut Chance, positions: usize) -> Stretches {
    let mut stretches = short_stretches(chance, positions);
    if chance.one_in(6) {
        stretches.length = MOST_OF_M;
    }
    stretches
}

/// A short M: the shortest, one as long as a cycle, or some other; and any set
/// speed, often at its limits or near the speed tolerance.
pub fn short_stretches(chance: &mut Chance, positions: usize) -> Stretches {
    let some = 1 + chance.below(60);
    let length = chance.pick(&[1, 1, 2, positions, some, some, some, some]);
    let set_speed = match chance.below(8) {
        0 => 1,
        1 => 1500,
        2 => chance.between(2, 120),
        _ => chance.between(1, 1500),
    };
    Stretches { length, set_speed: set_speed as i16 }
}

/// The usual tolerances, the limits, or any.
pub fn some_tolerances(chance: &mut Chance) -> [u16; 3] {
    match chance.below(8) {
        0 => [100, 40, 1200],
        1 => [0, 0, chance.pick(&[0, 10, 1200])],
        2 | 3 => [chance.between16(0, 100), chance.between16(0, 40), chance.between16(0, 100)],
        4 => [chance.between16(1, 10), chance.between16(0, 3), chance.between16(0, 1200)],
        _ => [30, 20, 300],
    }
}
