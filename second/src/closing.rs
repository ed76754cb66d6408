//! The closing figures: weighted consumption, range and recharge figure.

use crate::run::Finished;

/// No q_c and no recharge figure may be above this.
pub const MOST_MWH_PER_KM: i128 = 10_000_000;

/// The figures of a closing that was not refused.
#[derive(Clone, Copy, Debug, PartialEq)]
pub struct Figures {
    pub weighted: i128,
    pub range: i128,
}

/// The closing: 10, 11, 12, 13 in that order, each over all finished cycles.
/// `energy` is E, with the transfer before the test, in units of 0.25 mJ as
/// all energies here.
pub fn close(finished: &[Finished], energy: i128) -> Result<Figures, u8> {
    if finished.len() < 3 {
        return Err(10);
    }
    let first_two = finished[0].energy + finished[1].energy;
    if finished.iter().any(|cycle| cycle.energy < 1) || energy < first_two {
        return Err(11);
    }
    if finished.iter().any(|cycle| cycle.distance == 0) {
        return Err(12);
    }
    let q: Vec<i128> = finished.iter().map(consumption).collect();
    if q.iter().any(|q| !(1..=MOST_MWH_PER_KM).contains(q)) {
        return Err(12);
    }
    let weighted = weighted(finished[0].energy, finished[1].energy, energy, &q);
    match range(energy, weighted) {
        0 => Err(13),
        range => Ok(Figures { weighted, range }),
    }
}

/// q_c = floor(100 e_c / d_c), where both are above 0.
pub fn consumption(cycle: &Finished) -> i128 {
    100 * cycle.energy / cycle.distance
}

/// W, from the first two energies, E and the q of all finished cycles.
pub fn weighted(e1: i128, e2: i128, energy: i128, q: &[i128]) -> i128 {
    let others = q.len() as i128 - 2;
    let sum_of_others: i128 = q[2..].iter().sum();
    let above = others * (q[0] * e1 + q[1] * e2) + (energy - e1 - e2) * sum_of_others;
    above / (energy * others)
}

/// The weight of each finished cycle by 000, formula 9, as a fraction over
/// E (n-2): what stands above, and E (n-2). There are three cycles or more.
pub fn weights(finished: &[Finished], energy: i128) -> (Vec<i128>, i128) {
    let others = finished.len() as i128 - 2;
    let (first_two, rest) = finished.split_at(2);
    let other = energy - first_two[0].energy - first_two[1].energy;
    let above = first_two.iter().map(|cycle| others * cycle.energy);
    (above.chain(rest.iter().map(|_| other)).collect(), energy * others)
}

/// Range = floor(5E / (72W)) metres.
fn range(energy: i128, weighted: i128) -> i128 {
    5 * energy / (72 * weighted)
}

/// The recharge figure after a closing that gave its figures: absent, 14, 12.
/// `after` is F; `amount` is A in Wh, if field 7 was there.
pub fn recharge(
    figures: &Figures,
    energy: i128,
    after: i128,
    amount: Option<i128>,
) -> Result<Option<i128>, u8> {
    let Some(amount) = amount else {
        return Ok(None);
    };
    if energy + after < 1 {
        return Err(14);
    }
    let figure = energy * amount * 1_000_000 / ((energy + after) * figures.range);
    if figure > MOST_MWH_PER_KM {
        return Err(12);
    }
    Ok(Some(figure))
}
