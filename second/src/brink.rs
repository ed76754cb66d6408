//! Records on the brink of a stop or of the limit. A stopping sample closes
//! the last interval and begins none, and the sample after cycle 64 closes
//! that cycle and is not judged (document 02, L2). The shortened method has the
//! same stops in its four cycles, and no limit (document 02, L5).

use crate::chance::Chance;
use crate::draft::Draft;
use crate::drive::{constant, middle, outside, sample, Power};
use crate::faults::spoil_last_block;
use crate::run::MOST_CYCLES;
use crate::shortened::SHORTENED_CYCLES;
use crate::small::{short_stretches, some_points, written};
use crate::write::Raw;

/// Each cycle has as many samples outside as the allowance bears, or a few
/// less; in one cycle there may be one more, often at the last position.
pub fn brink(chance: &mut Chance) -> Vec<Vec<u8>> {
    let seconds = chance.between(2, 4) as usize;
    let allowance = some_allowance(chance);
    let mut draft = brink_draft(chance, seconds, allowance);
    let cycles = match draft.stretches {
        Some(_) => SHORTENED_CYCLES,
        None => chance.between(4, 6) as usize,
    };
    let whole = draft.first_of(cycles);
    drive_up_to(chance, &mut draft, whole);
    let stop = if chance.one_in(2) { chance.below(cycles) } else { cycles };
    put_outside(chance, &mut draft, cycles, stop);
    if draft.stretches.is_some() {
        drive_up_to(chance, &mut draft, whole + 2);
    }
    written_or_spoiled(chance, draft, 12)
}

/// A stop at the first or the last position of a cycle, often of the first
/// one. The record ends with it, or goes on. The allowance is 0, for outside
/// samples are counted afresh in each cycle.
pub fn stop_at_joint(chance: &mut Chance) -> Vec<Vec<u8>> {
    let seconds = chance.between(2, 4) as usize;
    let mut draft = brink_draft(chance, seconds, 0);
    let cycle = match draft.stretches {
        Some(_) => chance.below(SHORTENED_CYCLES),
        None => chance.pick(&[0, 0, 1, 2, 3, 4]),
    };
    let gates = draft.gates();
    let (first, position) = (draft.first_of(cycle), chance.pick(&[0, 0, gates.len() - 1]));
    drive_up_to(chance, &mut draft, first + gates.len());
    let at = first + position;
    draft.samples[at].speed = outside(chance, &gates[position]);
    match chance.below(3) {
        0 => draft.samples.truncate(at + 1),
        1 => draft.samples.truncate(at + 2),
        _ => {}
    }
    written_or_spoiled(chance, draft, 12)
}

/// About 64 cycles: one sample short of them, no sample after them, one, or
/// some; those after them may be far outside. Or a stop in cycle 64.
pub fn limit(chance: &mut Chance) -> Vec<Vec<u8>> {
    if chance.one_in(8) {
        return no_limit(chance);
    }
    let allowance = if chance.one_in(2) { 0 } else { some_allowance(chance) };
    let mut draft = regular_draft(chance, 2, allowance);
    let whole = draft.first_of(MOST_CYCLES);
    drive_up_to(chance, &mut draft, whole);
    let stop = if chance.one_in(4) { MOST_CYCLES - 1 } else { MOST_CYCLES };
    put_outside(chance, &mut draft, MOST_CYCLES, stop);
    drive_up_to(chance, &mut draft, whole + 40);
    if chance.one_in(2) {
        let far = chance.pick(&[0, 1500]);
        draft.samples[whole..].iter_mut().for_each(|one| one.speed = far);
    }
    let after = chance.between(2, 40) as usize;
    draft.samples.truncate(chance.pick(&[whole - 1, whole, whole + 1, whole + 1, whole + after]));
    written_or_spoiled(chance, draft, 7)
}

/// The shortened method with more samples than 64 cycles have: M or E is long.
fn no_limit(chance: &mut Chance) -> Vec<Vec<u8>> {
    let mut draft = regular_draft(chance, 2, 0);
    let mut stretches = short_stretches(chance, draft.positions());
    stretches.length = chance.pick(&[stretches.length, 2000, 2400, 5000]);
    draft.stretches = Some(stretches);
    let count = MOST_CYCLES * draft.positions() + chance.pick(&[0, 1, 2, 40]);
    drive_up_to(chance, &mut draft, count);
    written_or_spoiled(chance, draft, 7)
}

fn some_allowance(chance: &mut Chance) -> u16 {
    chance.pick(&[0, 0, 1, 2, 5, 20, 38, 39])
}

/// A draft of the regular method, or once in two times of the shortened one.
fn brink_draft(chance: &mut Chance, seconds: usize, allowance: u16) -> Draft {
    let mut draft = regular_draft(chance, seconds, allowance);
    if chance.one_in(2) {
        draft.stretches = Some(short_stretches(chance, draft.positions()));
    }
    draft
}

/// A draft in which every position has speeds inside and outside; 0 and 1500
/// are far outside everywhere.
fn regular_draft(chance: &mut Chance, seconds: usize, allowance: u16) -> Draft {
    let points = some_points(chance, seconds, 300, 900);
    let tolerances = [chance.between16(1, 60), chance.between16(0, 40), allowance];
    Draft::new(chance, points, tolerances)
}

/// Adds samples in the middle of the band, or at a constant speed, up to so many.
fn drive_up_to(chance: &mut Chance, draft: &mut Draft, count: usize) {
    let gates = draft.gates();
    for at in draft.samples.len()..count {
        let speed = match draft.position_of(at) {
            Some(position) => middle(&gates[position]),
            None => constant(chance, draft),
        };
        draft.samples.push(sample(chance, speed, Power::Steady));
    }
}

/// Puts samples outside into all cycles; in cycle `stop` one too many.
fn put_outside(chance: &mut Chance, draft: &mut Draft, cycles: usize, stop: usize) {
    let (gates, allowance) = (draft.gates(), usize::from(draft.tolerances[2]));
    for cycle in 0..cycles {
        let first = draft.first_of(cycle);
        for at in outside_places(chance, gates.len(), allowance, cycle == stop) {
            draft.samples[first + at].speed = outside(chance, &gates[at]);
        }
    }
}

fn outside_places(
    chance: &mut Chance,
    positions: usize,
    allowance: usize,
    too_many: bool,
) -> Vec<usize> {
    if !too_many {
        let fewer = if chance.one_in(2) { allowance } else { chance.below(allowance + 1) };
        return chance.some_of(fewer.min(positions), positions);
    }
    let mut places = chance.some_of(allowance, positions - 1);
    if chance.one_in(2) {
        places.push(positions - 1);
    } else {
        places = chance.some_of(allowance + 1, positions);
    }
    places
}

/// The fields, twice in `rarity` times with a fault in the last sample or
/// block, which is refused behind a stop and behind the limit too.
pub fn written_or_spoiled(chance: &mut Chance, mut draft: Draft, rarity: usize) -> Vec<Vec<u8>> {
    let fault = chance.below(rarity);
    if fault == 0 {
        spoil_last_sample(&mut draft);
    }
    let mut fields = written(chance, draft);
    if fault == 1 {
        spoil_last_block(chance, &mut fields);
    }
    fields
}

/// Refusal 5: a bad value in the last sample.
fn spoil_last_sample(draft: &mut Draft) {
    if let Some(last) = draft.samples.last_mut() {
        *last = Raw { speed: 1501, ..*last };
    }
}
