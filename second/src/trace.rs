//! The trace of a record: the sheet, and with each line every number that it
//! came from (REQUESTS.md, 'The desk's programs').

use crate::closing::{consumption, weights};
use crate::line;
use crate::record::Record;
use crate::run::{Begun, Lap, Part, Run};

/// The whole trace, each line with its line end.
pub fn trace(bytes: &[u8]) -> String {
    line::list(bytes, lines)
}

fn lines(record: &Record) -> Vec<String> {
    let run = record.run();
    let mut lines = record_lines(record);
    lines.push(line::end(&run));
    lines.extend(run.begun.iter().filter_map(stop_line));
    lines.extend(run.begun.iter().flat_map(|begun| cycle_lines(record, begun)));
    lines.extend(run.begun.iter().filter_map(stretch_line));
    lines.extend([line::cycles(&run), line::outside(&run), line::drawn(&run)]);
    lines.extend(energy_lines(record, &run));
    lines.extend(closing_lines(record, &run));
    lines
}

/// What the record's fields say.
fn record_lines(record: &Record) -> Vec<String> {
    let method = match &record.stretches {
        None => "method regular".to_string(),
        Some(one) => format!("method shortened {} {}", one.length, one.set_speed),
    };
    let (fields, blocks, passed) = (record.fields, record.blocks, line::passed(record));
    vec![
        line::run(record),
        method,
        line::cycle(&record.cycle),
        line::tolerances(&record.tolerances),
        format!("fields {fields} blocks {blocks} {passed}"),
        format!("offered {}", record.samples.len()),
    ]
}

/// Where the run stopped, if it stopped in this part. In M nothing stops it.
fn stop_line(begun: &Begun) -> Option<String> {
    match begun.part {
        _ if !begun.lap.stopped => None,
        Part::Cycle(c) => Some(format!("stop cycle {c} position {}", begun.lap.counted)),
        Part::M => None,
        Part::E => Some("stop stretch E".to_string()),
    }
}

/// The lines of a cycle's phases, then its own, which stands where an interval
/// is closed or a sample is outside. There are none for M and E.
fn cycle_lines(record: &Record, begun: &Begun) -> Vec<String> {
    let (Part::Cycle(number), lap) = (begun.part, &begun.lap) else {
        return Vec::new();
    };
    let mut lines = Vec::new();
    for (at, phase) in record.phases(begun).iter().enumerate() {
        let (told, end) = (amounts(phase.energy, phase.distance), how_far(phase.finished));
        lines.push(format!("phase {number} {} {told} {end}", at + 1));
    }
    if lap.closed > 0 || lap.outside > 0 {
        let (told, end) = (amounts(lap.energy, lap.distance), how_far(lap.finished));
        let outside = lap.outside;
        lines.push(format!("cycle {number} {told} outside {outside} {end}{}", rate(begun)));
    }
    lines
}

/// The rate of a finished cycle that has energy and distance, whatever the
/// closing says of it.
fn rate(begun: &Begun) -> String {
    let cycle = begun.finished_cycle().filter(|cycle| cycle.energy >= 1 && cycle.distance >= 1);
    cycle.map_or(String::new(), |cycle| format!(" rate {}", consumption(&cycle)))
}

/// M or E, where an interval of it is closed.
fn stretch_line(begun: &Begun) -> Option<String> {
    let name = match begun.part {
        Part::Cycle(_) => return None,
        Part::M => "M",
        Part::E => "E",
    };
    let Lap { energy, distance, closed, finished, .. } = begun.lap;
    let told = format!("stretch {name} {} {}", amounts(energy, distance), how_far(finished));
    (closed > 0).then_some(told)
}

fn amounts(energy: i64, distance: i64) -> String {
    format!("energy {energy} distance {distance}")
}

fn how_far(finished: bool) -> &'static str {
    if finished {
        "finished"
    } else {
        "open"
    }
}

/// The transfers in the run's unit, so that before + drawn = whole.
fn energy_lines(record: &Record, run: &Run) -> [String; 2] {
    [
        format!("transfer before {} after {}", record.before, record.after),
        format!("whole {}", record.energy(run)),
    ]
}

/// A closing refusal ends the list, as on the sheet.
fn closing_lines(record: &Record, run: &Run) -> Vec<String> {
    let figures = match record.close(run) {
        Ok(figures) => figures,
        Err(number) => return vec![line::refused(number)],
    };
    let (above, below) = weights(&run.finished, record.energy(run));
    let weight = |(at, above): (usize, &i128)| format!("weight {} {above} {below}", at + 1);
    let mut lines: Vec<String> = above.iter().enumerate().map(weight).collect();
    let amount = record.recharge.map_or("-".to_string(), |amount| amount.to_string());
    lines.extend([line::weighted(&figures), line::range(&figures)]);
    lines.extend([format!("recharge {amount}"), line::ac(record, run, &figures)]);
    lines
}
