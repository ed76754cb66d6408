//! How far the printed figures are from the exact ones (document 02, L11), on
//! whole records of both methods: all numbers are read from the trace. With 64
//! cycles the common product of the distances has more than a thousand bits.

mod big;
mod told;

use big::{product, Big};
use second::chance::Chance;
use second::make::make;
use second::trace::trace;
use told::Told;

/// A closing that was not refused, as it is printed; W* is `above` / `below`.
struct Closing {
    weighted: i128,
    range: i128,
    whole: i128,
    rates: Vec<i128>,
    above: Big,
    below: Big,
}

/// W* is the sum of weight × 100 e / d; all are brought over the weights' number
/// below and the product of all distances. `None` where there are no figures.
fn closing(trace: &str) -> Option<Closing> {
    let told = Told::new(trace);
    told.word("range", 1)?;
    let mut cycles = told.amounts("cycle");
    cycles.retain(|cycle| cycle.finished);
    let (weights, below) = told.weights();
    assert_eq!(weights.len(), cycles.len());
    let mut above = Big::new(0);
    for (at, (cycle, weight)) in cycles.iter().zip(&weights).enumerate() {
        let others = cycles.iter().enumerate().filter(|(other, _)| *other != at);
        let one = [*weight, 100, cycle.energy].into_iter();
        above = above.plus(&product(one.chain(others.map(|(_, other)| other.distance))));
    }
    Some(Closing {
        weighted: told.number("weighted", 1),
        range: told.number("range", 1),
        whole: told.number("whole", 1),
        rates: cycles.iter().filter_map(|cycle| cycle.rate).collect(),
        above,
        below: product(cycles.iter().map(|cycle| cycle.distance).chain([below])),
    })
}

impl Closing {
    /// So many times W*, times what stands below it.
    fn exact(&self, factor: i128) -> Big {
        self.above.times(&Big::new(factor))
    }

    /// The number, times the same.
    fn whole_number(&self, number: i128) -> Big {
        self.below.times(&Big::new(number))
    }

    /// W is not above W* and less than 2 below it, and between the rates.
    fn weighted_is_near(&self) -> bool {
        let (w, rates) = (self.weighted, &self.rates);
        let near = self.whole_number(w) <= self.exact(1);
        near && self.exact(1) < self.whole_number(w + 2)
            && rates.iter().min() <= Some(&w)
            && Some(&w) <= rates.iter().max()
    }

    /// With R* = 5E / (72W*): R* < R + 1; R × W < R* × (W + 2); and R - 1 <= R*
    /// where 2R <= W + 2.
    fn range_is_near(&self) -> bool {
        let (w, r, five) = (self.weighted, self.range, 5 * self.whole);
        let not_below = self.whole_number(five) < self.exact(72 * (r + 1));
        let above_by = self.exact(72 * r * w) < self.whole_number(five * (w + 2));
        let one_more = self.exact(72 * (r - 1)) <= self.whole_number(five);
        not_below && above_by && (2 * r > w + 2 || one_more)
    }
}

/// The closings of these records that have figures.
fn closings(kind: &str, seeds: std::ops::RangeInclusive<u64>) -> Vec<(u64, Closing)> {
    let one = |seed| Some((seed, closing(&trace(&make(kind, seed, &[]).unwrap()))?));
    seeds.filter_map(one).collect()
}

#[test]
fn small_records() {
    let all = closings("small", 1..=2500);
    assert!(all.len() > 800, "{} closings", all.len());
    assert!(all.iter().filter(|(_, one)| one.rates.len() == 64).count() >= 20);
    for (seed, one) in &all {
        assert!(one.weighted_is_near() && one.range_is_near(), "seed {seed}");
    }
    let above = |one: &Closing| {
        one.whole_number(5 * one.whole) < one.exact(72 * one.range) && 2 * one.range <= one.weighted
    };
    assert!(all.iter().any(|(_, one)| above(one)), "no range is above the exact one");
}

#[test]
fn long_records() {
    let all = closings("long", 1..=12);
    assert!(all.len() >= 6, "{} closings", all.len());
    for (seed, one) in &all {
        assert!(one.weighted_is_near() && one.range_is_near(), "seed {seed}");
    }
}

/// The big numbers against those of 128 bits.
#[test]
fn big_numbers() {
    let chance = &mut Chance::new(4);
    let some = |chance: &mut Chance| i128::from(chance.bits() >> (1 + chance.below(63)));
    for _ in 0..20_000 {
        let (a, b, c) = (some(chance), some(chance), some(chance));
        let (left, right) = (Big::new(a).times(&Big::new(b)), Big::new(c));
        assert_eq!(left, Big::new(a * b));
        assert_eq!(left.plus(&right), Big::new(a * b + c));
        assert_eq!(left.cmp(&right), (a * b).cmp(&c));
    }
    let two_to_160 = product([1 << 80, 1 << 80].into_iter());
    assert_eq!(two_to_160, product([1 << 96, 1 << 64].into_iter()));
    assert!(two_to_160 > product([1 << 80, (1 << 80) - 1].into_iter()));
}
