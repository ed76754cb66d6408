//! The shortened method (document 02, L5): two cycles, stretch M of constant
//! speed, two cycles, stretch E of constant speed.
//!
//! The cycles are judged as in the regular method. In M nothing is judged. E
//! goes on until the vehicle holds the set speed no more. There is no end by
//! limit.

use crate::cycle::Cycle;
use crate::run::{between, Begun, End, Lap, Part, Run, Sample, Tolerances};

/// The cycles of a shortened run.
pub const SHORTENED_CYCLES: usize = 4;
/// The greatest length of M, in samples.
pub const MOST_OF_M: usize = 4_000_000;
/// As many samples in a row that are too slow stop the run in E.
pub const TOO_SLOW: usize = 80;

/// The length of M in samples, and the set speed of E.
#[derive(Clone, Copy, Debug, PartialEq)]
pub struct Stretches {
    pub length: usize,
    pub set_speed: i16,
}

impl Stretches {
    /// `None` is refusal 19.
    pub fn within_limits(length: i128, set_speed: i128) -> Option<Stretches> {
        let good = (1..=MOST_OF_M as i128).contains(&length) && (1..=1500).contains(&set_speed);
        good.then_some(Stretches { length: length as usize, set_speed: set_speed as i16 })
    }

    /// The parts in order, each with the number of its first sample.
    fn parts(&self, positions: usize) -> [(usize, Part); 6] {
        let behind = 2 * positions + self.length;
        [
            (0, Part::Cycle(1)),
            (positions, Part::Cycle(2)),
            (2 * positions, Part::M),
            (behind, Part::Cycle(3)),
            (behind + positions, Part::Cycle(4)),
            (behind + 2 * positions, Part::E),
        ]
    }

    /// The sample of E that stops the run: the 80th in a row below the set
    /// speed less the tolerance. None is among them before one has reached the
    /// set speed itself.
    fn stop_in_e(&self, samples: &[Sample], tolerance: i16) -> Option<usize> {
        let reached = samples.iter().position(|sample| sample.speed >= self.set_speed)?;
        let mut slow = 0;
        for (at, sample) in samples.iter().enumerate().skip(reached) {
            slow = if sample.speed + tolerance < self.set_speed { slow + 1 } else { 0 };
            if slow == TOO_SLOW {
                return Some(at);
            }
        }
        None
    }
}

impl Run {
    /// Drives a shortened run over all accepted samples, part after part.
    pub fn drive_shortened(
        cycle: &Cycle,
        tolerances: &Tolerances,
        stretches: &Stretches,
        samples: &[Sample],
    ) -> Run {
        let gates = cycle.gate_table(tolerances.speed, tolerances.time);
        let (positions, allowance) = (gates.len(), tolerances.allowance as i64);
        let mut run = Run::undriven();
        for (first, part) in stretches.parts(positions) {
            if first >= samples.len() || run.end == End::Stop {
                break;
            }
            let rest = &samples[first..];
            let lap = match part {
                Part::Cycle(_) => Lap::drive(&gates, with_next(rest, positions), allowance),
                Part::M => Lap::m(rest, stretches.length),
                Part::E => Lap::e(rest, stretches.stop_in_e(rest, tolerances.speed as i16)),
            };
            run.add(Begun { part, first, lap });
        }
        run
    }
}

impl Lap {
    /// Stretch M, from its first sample on.
    fn m(samples: &[Sample], length: usize) -> Lap {
        let lap = Lap::unjudged(with_next(samples, length), samples.len().min(length));
        Lap { finished: lap.closed == length, ..lap }
    }

    /// Stretch E, from its first sample on. The sample that stops the run closes
    /// the last interval; it is not counted, and it is not outside. E is never
    /// finished.
    fn e(samples: &[Sample], stop: Option<usize>) -> Lap {
        match stop {
            Some(at) => Lap { stopped: true, ..Lap::unjudged(&samples[..=at], at) },
            None => Lap::unjudged(samples, samples.len()),
        }
    }

    /// The intervals between these samples; none of them is judged.
    fn unjudged(samples: &[Sample], counted: usize) -> Lap {
        let (energy, distance) = between(samples);
        let (outside, closed) = (0, samples.len() - 1);
        Lap { energy, distance, outside, counted, closed, stopped: false, finished: false }
    }
}

/// The first samples, as many as asked for, and the one after them, which
/// closes their last interval; or as many as there are.
fn with_next(samples: &[Sample], length: usize) -> &[Sample] {
    &samples[..samples.len().min(length + 1)]
}
