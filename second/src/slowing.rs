//! Records of the shortened method on the brink of a stop in E (document 02,
//! L5): rows of 79, 80 and 81 samples too slow, speeds at and beside the set
//! speed, with the tolerance and without it.

use crate::brink::written_or_spoiled;
use crate::chance::Chance;
use crate::draft::Draft;
use crate::drive::{drive_mixed, sample, some_power, Power};
use crate::shortened::SHORTENED_CYCLES;
use crate::small::{short_stretches, some_points};

/// How a speed v stands to the set speed u and the speed tolerance s.
#[derive(Clone, Copy)]
enum Pace {
    /// v + s < u
    Slow,
    /// v + s >= u, and v < u
    Held,
    /// v >= u
    Reached,
}

/// Samples of one pace in a row.
type Row = (Pace, usize);

/// Four cycles that bring no stop, an M, and an E that may bring one.
pub fn slowing(chance: &mut Chance) -> Vec<Vec<u8>> {
    let mut draft = slowing_draft(chance);
    let power = if chance.one_in(5) { some_power(chance) } else { Power::Steady };
    let count = draft.first_of(SHORTENED_CYCLES);
    let rarity = chance.pick(&[20, 1000, 1000]);
    draft.samples = drive_mixed(chance, &draft, count, power, rarity);
    pace_m(chance, &mut draft);
    for (pace, count) in rows(chance) {
        for _ in 0..count {
            let speed = speed(chance, &draft, pace);
            draft.samples.push(sample(chance, speed, power));
        }
    }
    written_or_spoiled(chance, draft, 20)
}

/// Mostly a set speed that is above the speed tolerance, often by one step.
fn slowing_draft(chance: &mut Chance) -> Draft {
    let seconds = chance.between(2, 3) as usize;
    let points = some_points(chance, seconds, 200, 1000);
    let any = chance.between16(1, 99);
    let tolerance = chance.pick(&[0, 1, 30, 30, any, 100]);
    let tolerances = [tolerance, chance.between16(0, 40), 20];
    let mut draft = Draft::new(chance, points, tolerances);
    let mut stretches = short_stretches(chance, draft.positions());
    let s = tolerance as i16;
    match chance.below(8) {
        0 => stretches.set_speed = s.max(1),
        1 => stretches.set_speed = s + 1,
        2 | 3 => stretches.set_speed = chance.between(1101, 1500) as i16,
        _ => stretches.set_speed = stretches.set_speed.max(s + 2),
    }
    draft.stretches = Some(stretches);
    draft
}

/// One pace for the whole of M, now and then.
fn pace_m(chance: &mut Chance, draft: &mut Draft) {
    let pace = match chance.below(4) {
        0 => Pace::Slow,
        1 => Pace::Held,
        2 => Pace::Reached,
        _ => return,
    };
    for at in 2 * draft.positions()..draft.first_of(2) {
        draft.samples[at].speed = speed(chance, draft, pace);
    }
}

/// A speed of this pace, mostly at an edge; where there is none, the nearest.
fn speed(chance: &mut Chance, draft: &Draft, pace: Pace) -> u16 {
    let u = draft.stretches.map_or(0, |stretches| i64::from(stretches.set_speed));
    let s = i64::from(draft.tolerances[0]);
    let (least, most) = match pace {
        Pace::Slow => (0, u - s - 1),
        Pace::Held => (u - s, u - 1),
        Pace::Reached => (u, 1500),
    };
    let (least, most) = (least.max(0), most.max(least).max(0));
    let any = chance.between(least, most);
    let speed = match pace {
        Pace::Slow => chance.pick(&[most, most, most, any]),
        Pace::Held => chance.pick(&[least, least, most, any]),
        Pace::Reached => chance.pick(&[least, least, least, any]),
    };
    speed as u16
}

/// All of E: before the set speed is reached, the sample that reaches it, and
/// what follows. Or it is never reached.
fn rows(chance: &mut Chance) -> Vec<Row> {
    let mut rows = rows_before(chance);
    if chance.one_in(6) {
        rows.extend([(Pace::Slow, 80 + chance.below(5)), (Pace::Held, chance.below(3))]);
    } else {
        rows.push((Pace::Reached, 1));
        rows.extend(rows_behind(chance));
    }
    rows
}

fn rows_before(chance: &mut Chance) -> Vec<Row> {
    match chance.below(5) {
        0 => vec![(Pace::Held, 1 + chance.below(5))],
        1 => vec![(Pace::Slow, 79 + chance.below(3)), (Pace::Held, chance.below(2))],
        2 => vec![(Pace::Slow, 1 + chance.below(79))],
        _ => vec![],
    }
}

fn rows_behind(chance: &mut Chance) -> Vec<Row> {
    let other = chance.pick(&[Pace::Held, Pace::Held, Pace::Reached]);
    let (broken, behind) = ((other, 1), (other, 1 + chance.below(30)));
    match chance.below(9) {
        0 => vec![],
        1 => vec![(Pace::Slow, 79)],
        2 => vec![(Pace::Slow, 80)],
        3 => vec![(Pace::Slow, 81)],
        4 => vec![(Pace::Slow, 79), broken, (Pace::Slow, 79)],
        5 => vec![(Pace::Slow, 79), broken, (Pace::Slow, 80)],
        6 => vec![(Pace::Slow, 79), broken, (Pace::Slow, 80), behind],
        7 => vec![behind, (Pace::Slow, 80), behind],
        _ => vec![behind, (Pace::Slow, 1 + chance.below(79)), behind],
    }
}
