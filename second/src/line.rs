//! The lines that more than one of the desk's lists has, each said once; and
//! how a list is printed.

use crate::closing::{recharge, Figures};
use crate::cycle::Cycle;
use crate::record::{read, Record, Refused};
use crate::run::{End, Run, Tolerances};

/// The list of a record, each line with its line end. A refused field gives
/// one line and nothing else.
pub fn list(bytes: &[u8], lines: fn(&Record) -> Vec<String>) -> String {
    let lines = match read(bytes) {
        Ok(record) => lines(&record),
        Err(Refused { number, field }) => vec![format!("{} field {field}", refused(number))],
    };
    lines.iter().map(|line| format!("{line}\n")).collect()
}

pub fn refused(number: u8) -> String {
    format!("refused {number}")
}

/// The characters of a vehicle number.
pub fn characters(vehicle: &[u8]) -> String {
    String::from_utf8_lossy(vehicle).into_owned()
}

pub fn run(record: &Record) -> String {
    format!("run {}", characters(&record.vehicle))
}

/// T, and the phase ends in seconds.
pub fn cycle(cycle: &Cycle) -> String {
    let ends: String = cycle.phase_ends.iter().map(|end| format!(" {end}")).collect();
    format!("cycle {} phases{ends}", cycle.seconds())
}

pub fn tolerances(tolerances: &Tolerances) -> String {
    let Tolerances { speed, time, allowance } = tolerances;
    format!("tolerances {speed} {time} {allowance}")
}

pub fn passed(record: &Record) -> String {
    format!("passed {}", record.passed)
}

pub fn end(run: &Run) -> String {
    let end = match run.end {
        End::None => "none",
        End::Stop => "stop",
        End::Limit => "limit",
    };
    format!("end {end} {}", run.counted)
}

pub fn cycles(run: &Run) -> String {
    format!("cycles {}", run.finished.len())
}

pub fn outside(run: &Run) -> String {
    format!("outside {}", run.outside)
}

pub fn drawn(run: &Run) -> String {
    format!("drawn {}", run.drawn)
}

pub fn weighted(figures: &Figures) -> String {
    format!("weighted {}", figures.weighted)
}

pub fn range(figures: &Figures) -> String {
    format!("range {}", figures.range)
}

/// The recharge figure, or its refusal in its place. It ends the list.
pub fn ac(record: &Record, run: &Run, figures: &Figures) -> String {
    match recharge(figures, record.energy(run), record.after, record.recharge) {
        Ok(Some(figure)) => format!("ac {figure}"),
        Ok(None) => "ac -".to_string(),
        Err(number) => refused(number),
    }
}
