//! Corners of the closing: cycles whose energies and distances are wished
//! for exactly, at and beside every limit of 10, 11, 12 and 13. One in two is
//! of the shortened method.

use crate::chance::Chance;
use crate::closing::close;
use crate::draft::{sprinkle_foreign, Draft};
use crate::recharge::recharge_corner;
use crate::record::MOST_TRANSFER;
use crate::run::Finished;
use crate::shortened::{Stretches, SHORTENED_CYCLES};
use crate::wish::Wish;

/// A record at some corner of the closing or of the recharge figure.
pub fn corner(chance: &mut Chance) -> Vec<Vec<u8>> {
    let seconds = chance.between(2, 4) as usize;
    let mut wish = usual_wish(chance, 20 * seconds);
    match chance.below(16) {
        0 | 1 => thin(chance, &mut wish),
        2 => split(chance, &mut wish),
        3 => standing(chance, &mut wish),
        4 | 5 => edge_of_q(chance, &mut wish),
        6 | 7 => edge_of_range(chance, &mut wish),
        8 => few(chance, &mut wish),
        _ => recharge_corner(chance, &mut wish),
    }
    written(chance, &wish, seconds)
}

fn usual_wish(chance: &mut Chance, positions: usize) -> Wish {
    let shortened = chance.one_in(2);
    let cycles = if shortened { SHORTENED_CYCLES } else { chance.between(3, 5) as usize };
    Wish {
        finished: (0..cycles).map(|_| usual_cycle(chance, positions)).collect(),
        m: shortened.then(|| usual_m(chance)),
        open: if chance.one_in(3) { chance.between(-200_000, 200_000).into() } else { 0 },
        before: chance.one_in(3).then(|| chance.between(0, 1_000_000).into()),
        after: chance.one_in(3).then(|| chance.between(0, 1_000_000).into()),
        recharge: (!chance.one_in(4)).then(|| chance.between(1, 60) as u32),
    }
}

fn usual_cycle(chance: &mut Chance, positions: usize) -> Finished {
    let distance = chance.between(600, Wish::most_distance(positions) as i64);
    let energy = chance.between(100 * distance, 50_000 * distance);
    Finished { energy: energy.into(), distance: distance.into() }
}

/// M draws energy, or gives some back.
fn usual_m(chance: &mut Chance) -> (usize, Finished) {
    let length = chance.between(12, 60) as usize;
    let distance = chance.between(300, Wish::most_distance(length) as i64);
    let energy = chance.between(-1_000, 50_000) * distance;
    (length, Finished { energy: energy.into(), distance: distance.into() })
}

/// 11 or nearly: one cycle draws next to nothing. Now and then another one
/// stands still, which is 12 and comes later.
fn thin(chance: &mut Chance, wish: &mut Wish) {
    let energy: i128 = chance.pick(&[-5_000_000, -1, 0, 1, 2]);
    let at = chance.below(wish.finished.len());
    wish.finished[at].energy = energy;
    if energy > 0 {
        wish.finished[at].distance = chance.between(1, 100 * energy as i64).into();
    }
    if chance.one_in(4) {
        standing(chance, wish);
    }
}

/// E is e_1 + e_2, one less or one more: by the transfer before the test, or
/// by an open cycle, or E, that gives energy back.
fn split(chance: &mut Chance, wish: &mut Wish) {
    let energy = wish.first_two() + i128::from(chance.between(-1, 1));
    if chance.one_in(2) {
        wish.set_energy(energy);
    } else {
        wish.open += energy - wish.energy();
    }
}

/// 12: one cycle of distance 0.
fn standing(chance: &mut Chance, wish: &mut Wish) {
    let at = chance.below(wish.finished.len());
    wish.finished[at].distance = 0;
}

/// One cycle whose q is 0, 1, 10,000,000 or one more, by the least change.
fn edge_of_q(chance: &mut Chance, wish: &mut Wish) {
    let at = chance.below(wish.finished.len());
    let few = i128::from(chance.between(1, 77));
    let distance = short_or_any(chance, 7800);
    let first_above = (10_000_001 * distance + 99) / 100;
    wish.finished[at] = match chance.below(5) {
        0 => Finished { energy: few, distance: 100 * few },
        1 => Finished { energy: few, distance: 100 * few + 1 },
        2 => Finished { energy: 100_000 * distance, distance },
        3 => Finished { energy: first_above - 1, distance },
        _ => Finished { energy: first_above, distance },
    };
}

/// The least E that makes the range 1, found by halving, or one less. The
/// cycles are so short that e_1 + e_2 is always too little.
fn edge_of_range(chance: &mut Chance, wish: &mut Wish) {
    for cycle in &mut wish.finished {
        cycle.distance = short_or_any(chance, 600);
        cycle.energy = i128::from(chance.between(1, 60_000)) * cycle.distance;
    }
    let (mut zero, mut one) = (wish.first_two(), 2 * MOST_TRANSFER);
    while one - zero > 1 {
        let half = zero + (one - zero) / 2;
        if close(&wish.finished, half).is_ok() {
            one = half;
        } else {
            zero = half;
        }
    }
    wish.set_energy(if chance.one_in(2) { zero } else { one });
}

/// A distance of 1 now and then, else any up to the most.
fn short_or_any(chance: &mut Chance, most: i64) -> i128 {
    let most = if chance.one_in(5) { 1 } else { most };
    chance.between(1, most).into()
}

/// 10: too few cycles, whatever else is wrong.
fn few(chance: &mut Chance, wish: &mut Wish) {
    if chance.one_in(2) {
        thin(chance, wish);
    }
    let enough = if wish.m.is_some() { SHORTENED_CYCLES } else { 3 };
    wish.finished.truncate(chance.below(enough));
}

/// Writes the wish as a record, with foreign blocks now and then. No speed is
/// above the speed tolerance of 100, so E brings no stop: either the set speed
/// is not reached, or no speed is too slow.
fn written(chance: &mut Chance, wish: &Wish, seconds: usize) -> Vec<Vec<u8>> {
    let tolerances = [100, chance.between16(0, 40), chance.between16(0, 1200)];
    let mut draft = Draft::new(chance, vec![0; seconds + 1], tolerances);
    draft.stretches = wish.m.map(|(length, _)| {
        let set_speed = chance.between(1, 1500) as i16;
        Stretches { length, set_speed }
    });
    draft.samples = wish.samples(chance, draft.positions());
    draft.before = wish.before.map(|energy| energy as i64);
    draft.after = wish.after.map(|energy| energy as i64);
    draft.recharge = wish.recharge;
    let mut fields = draft.fields(chance);
    let blocks = chance.pick(&[0, 0, 0, 1, 2]);
    sprinkle_foreign(chance, &mut fields, &draft.vehicle, blocks);
    fields
}
