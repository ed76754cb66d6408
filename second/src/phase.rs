//! The phases of a cycle, as far as it was driven. An interval belongs to the
//! phase in which its earlier sample stands (document 02, L2).

use crate::cycle::PER_SECOND;
use crate::record::Record;
use crate::run::{between, Begun};

/// A phase in which an interval is closed. It is finished when its last one is.
#[derive(Clone, Copy, Debug, PartialEq)]
pub struct Phase {
    pub energy: i64,
    pub distance: i64,
    pub finished: bool,
}

impl Record {
    /// The phases of a cycle in which an interval is closed, in order.
    pub fn phases(&self, cycle: &Begun) -> Vec<Phase> {
        let (mut phases, mut from) = (Vec::new(), 0);
        for end in &self.cycle.phase_ends {
            let last = (PER_SECOND * end) as usize;
            let to = last.min(cycle.lap.closed);
            if from < to {
                let (energy, distance) = between(&self.samples[cycle.first..][from..=to]);
                phases.push(Phase { energy, distance, finished: to == last });
            }
            from = last;
        }
        phases
    }
}
