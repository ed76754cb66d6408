//! Corners of the recharge figure: E + F about 1, a figure about 0 and about
//! 10,000,000, and amounts at their limits. F is twice what field 6 says, so
//! E + F is odd where E is.

use crate::chance::Chance;
use crate::closing::{close, MOST_MWH_PER_KM};
use crate::record::{MOST_RECHARGE, MOST_TRANSFER};
use crate::wish::Wish;

/// Sets transfers and recharge amount to some corner.
pub fn recharge_corner(chance: &mut Chance, wish: &mut Wish) {
    match chance.below(14) {
        0..=3 => sum_about_one(chance, wish),
        4 => amount_at_the_top(chance, wish),
        5 | 6 => after_at_a_figure(chance, wish, MOST_MWH_PER_KM),
        7..=9 => {
            draw_little(chance, wish);
            after_at_a_figure(chance, wish, 0);
        }
        _ => amounts_at_limits(chance, wish),
    }
}

/// E + F from -2 to 3, with field 7 or without.
fn sum_about_one(chance: &mut Chance, wish: &mut Wish) {
    let sum = i128::from(chance.between(-1, 3));
    wish.after = Some((sum - wish.energy()).div_euclid(2));
    wish.recharge = (!chance.one_in(4)).then(|| chance.pick(&[1, 50, MOST_RECHARGE as u32]));
}

/// The greatest amount whose figure is not above the limit, or one more.
fn amount_at_the_top(chance: &mut Chance, wish: &mut Wish) {
    let energy = wish.energy();
    let Ok(figures) = close(&wish.finished, energy) else {
        return;
    };
    let greatest = ((MOST_MWH_PER_KM + 1) * wish.sum() * figures.range - 1) / (energy * 1_000_000);
    let amount = greatest + i128::from(chance.between(0, 1));
    wish.recharge = Some(amount.clamp(1, MOST_RECHARGE) as u32);
}

/// So little energy that a transfer after the test can bring the figure to 0.
fn draw_little(chance: &mut Chance, wish: &mut Wish) {
    for cycle in &mut wish.finished {
        cycle.energy = cycle.distance * i128::from(chance.between(1, 100));
    }
    if let Some((_, m)) = &mut wish.m {
        m.energy = chance.between(0, 1000).into();
    }
    wish.open = 0;
    wish.before = None;
}

/// The least E + F whose figure is not above `figure`, or one or two beside it.
fn after_at_a_figure(chance: &mut Chance, wish: &mut Wish, figure: i128) {
    let energy = wish.energy();
    let Ok(figures) = close(&wish.finished, energy) else {
        return;
    };
    let amount = chance.pick(&[1, 2, 10, 200, MOST_RECHARGE]);
    let least = energy * amount * 1_000_000 / ((figure + 1) * figures.range) + 1;
    let sum = least + i128::from(chance.between(-1, 1));
    let after = (sum - energy).div_euclid(2);
    wish.after = Some(after.clamp(-MOST_TRANSFER, MOST_TRANSFER));
    wish.recharge = Some(amount as u32);
}

/// Fields 6 and 7 at their limits; a field 6 also just beyond.
fn amounts_at_limits(chance: &mut Chance, wish: &mut Wish) {
    let sides = chance.below(5);
    if sides <= 2 {
        wish.before = Some(limit_of_transfer(chance));
    }
    if sides >= 2 {
        wish.after = Some(limit_of_transfer(chance));
    }
    wish.recharge = Some(chance.pick(&[1, MOST_RECHARGE as u32]));
}

/// Half of the limit and one more, which is beyond only when it is doubled;
/// the limit; the limit and one more, which is 14.
fn limit_of_transfer(chance: &mut Chance) -> i128 {
    let (half, most) = (MOST_TRANSFER / 2, MOST_TRANSFER);
    let size = chance.pick(&[half + 1, most, most, most + 1]);
    chance.pick(&[-size, size])
}
