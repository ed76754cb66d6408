//! Whole numbers from 0 on, of any size: as much as the tests need of them.

use std::cmp::Ordering;

/// Parts of 32 bits, the least first, without noughts at the end.
#[derive(Clone, Debug, PartialEq, Eq)]
pub struct Big(Vec<u32>);

impl Big {
    /// The number, which is not below 0.
    pub fn new(number: i128) -> Big {
        let number = u128::try_from(number).expect("a number from 0 on");
        Big((0..4).map(|part| (number >> (32 * part)) as u32).collect()).trimmed()
    }

    pub fn plus(&self, other: &Big) -> Big {
        let length = self.0.len().max(other.0.len()) + 1;
        let mut sum = Big(vec![0; length]);
        sum.add_at(&self.0, 1, 0);
        sum.add_at(&other.0, 1, 0);
        sum.trimmed()
    }

    pub fn times(&self, other: &Big) -> Big {
        let mut product = Big(vec![0; self.0.len() + other.0.len() + 1]);
        for (at, part) in other.0.iter().enumerate() {
            product.add_at(&self.0, *part, at);
        }
        product.trimmed()
    }

    /// Adds the parts, each taken `times` times, from part `at` on.
    fn add_at(&mut self, parts: &[u32], times: u32, at: usize) {
        let mut carry = 0;
        for (place, part) in parts.iter().chain(&[0]).enumerate() {
            let sum = u64::from(self.0[at + place]) + u64::from(*part) * u64::from(times) + carry;
            (self.0[at + place], carry) = (sum as u32, sum >> 32);
        }
        assert_eq!(carry, 0);
    }

    fn trimmed(mut self) -> Big {
        while self.0.last() == Some(&0) {
            self.0.pop();
        }
        self
    }
}

impl Ord for Big {
    fn cmp(&self, other: &Big) -> Ordering {
        let length = self.0.len().cmp(&other.0.len());
        length.then_with(|| self.0.iter().rev().cmp(other.0.iter().rev()))
    }
}

impl PartialOrd for Big {
    fn partial_cmp(&self, other: &Big) -> Option<Ordering> {
        Some(self.cmp(other))
    }
}

/// The product of all.
pub fn product(numbers: impl Iterator<Item = i128>) -> Big {
    numbers.fold(Big::new(1), |product, number| product.times(&Big::new(number)))
}
