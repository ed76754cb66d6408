//! The method of a record: the shortened one where field 8 is there, else the
//! regular one.

use crate::closing::{close, Figures};
use crate::record::Record;
use crate::run::Run;
use crate::shortened::SHORTENED_CYCLES;

impl Record {
    /// The run of all samples offered.
    pub fn run(&self) -> Run {
        match &self.stretches {
            None => Run::drive(&self.cycle, &self.tolerances, &self.samples),
            Some(stretches) => {
                Run::drive_shortened(&self.cycle, &self.tolerances, stretches, &self.samples)
            }
        }
    }

    /// E: the transfer before the test and all that the run has drawn.
    pub fn energy(&self, run: &Run) -> i128 {
        self.before + run.drawn
    }

    /// The closing of the run. A shortened one with a cycle missing is 10; with
    /// its four cycles the formulas are those of the regular method.
    pub fn close(&self, run: &Run) -> Result<Figures, u8> {
        if self.stretches.is_some() && run.finished.len() < SHORTENED_CYCLES {
            return Err(10);
        }
        close(&run.finished, self.energy(run))
    }
}
