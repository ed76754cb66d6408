//! The bench controller's question about a single sample, and its answer.

use crate::cycle::{Cycle, Verdict, TOP_SPEED};
use crate::field::number;
use crate::run::Tolerances;

/// The bytes of field 3's value and five unsigned 32-bit numbers.
#[derive(Clone, Debug, PartialEq)]
pub struct Question {
    pub cycle: Vec<u8>,
    pub speed_tolerance: u32,
    pub time_tolerance: u32,
    pub allowance: u32,
    pub position: u32,
    pub speed: u32,
}

impl Question {
    /// 0 inside, 1 below, 2 above, or minus a refusal: 2, 3, 6, 5 in that order.
    pub fn answer(&self) -> i32 {
        match self.verdict() {
            Ok(Verdict::Inside) => 0,
            Ok(Verdict::Below) => 1,
            Ok(Verdict::Above) => 2,
            Err(refusal) => -refusal,
        }
    }

    fn verdict(&self) -> Result<Verdict, i32> {
        let cycle = Cycle::from_bytes(&self.cycle).ok_or(2)?;
        let tolerances = self.tolerances().ok_or(3)?;
        let (position, speed) = (i128::from(self.position), i128::from(self.speed));
        if position >= cycle.positions() {
            return Err(6);
        }
        if speed > TOP_SPEED {
            return Err(5);
        }
        let band = cycle.band_by_walking(position, tolerances.time);
        Ok(band.verdict(tolerances.speed, speed))
    }

    fn tolerances(&self) -> Option<Tolerances> {
        Tolerances::within_limits(
            self.speed_tolerance.into(),
            self.time_tolerance.into(),
            self.allowance.into(),
        )
    }

    /// The form in the file: 4-byte length, the cycle's bytes, five numbers.
    pub fn to_bytes(&self) -> Vec<u8> {
        let mut bytes = (self.cycle.len() as u32).to_be_bytes().to_vec();
        bytes.extend(&self.cycle);
        for number in self.numbers() {
            bytes.extend(number.to_be_bytes());
        }
        bytes
    }

    fn numbers(&self) -> [u32; 5] {
        [self.speed_tolerance, self.time_tolerance, self.allowance, self.position, self.speed]
    }

    /// Cuts one question off the front; `None` when the bytes do not hold one.
    pub fn cut(bytes: &[u8]) -> Option<(Question, &[u8])> {
        let (length, rest) = split(bytes, 4)?;
        let (cycle, rest) = split(rest, number(length) as usize)?;
        let (numbers, rest) = split(rest, 20)?;
        let at = |index: usize| number(&numbers[4 * index..4 * index + 4]) as u32;
        let question = Question {
            cycle: cycle.to_vec(),
            speed_tolerance: at(0),
            time_tolerance: at(1),
            allowance: at(2),
            position: at(3),
            speed: at(4),
        };
        Some((question, rest))
    }
}

fn split(bytes: &[u8], at: usize) -> Option<(&[u8], &[u8])> {
    (bytes.len() >= at).then(|| bytes.split_at(at))
}

/// The answers to a file of questions, one a line; `None` when the file ends
/// inside a question.
pub fn answers(file: &[u8]) -> Option<String> {
    let mut lines = String::new();
    let mut left = file;
    while !left.is_empty() {
        let (question, rest) = Question::cut(left)?;
        lines.push_str(&format!("{}\n", question.answer()));
        left = rest;
    }
    Some(lines)
}
