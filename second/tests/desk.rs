//! Trace and field list of made records: what holds between their lines, and
//! between them, the sheet and the record.

mod told;

use second::listing::fields;
use second::make::make;
use second::sheet::sheet;
use second::trace::trace;
use told::{Amounts, Told};

/// Small records, those near the small one with every kind of field, and some
/// with foreign blocks and of 64 cycles and more: each by name.
fn records() -> impl Iterator<Item = (String, Vec<u8>)> {
    let small = (1..=2000).map(|seed| ("small", seed));
    let prefix = (0..=196).map(|seed| ("prefix", seed));
    let change = (0..51_510).step_by(53).map(|seed| ("change", seed));
    let long = (1..=8).map(|seed| ("long", seed));
    let all = small.chain(prefix).chain(change).chain(long);
    all.map(|(kind, seed)| (format!("{kind} {seed}"), make(kind, seed, &[]).unwrap()))
}

/// The traces of the records of which no field is refused.
fn traces() -> impl Iterator<Item = (String, String)> {
    let traces = records().map(|(name, record)| (name, trace(&record)));
    traces.filter(|(_, trace)| !trace.starts_with("refused"))
}

/// Each line of the sheet stands in the trace, in the same order; but `passed`
/// ends the line of the fields.
#[test]
fn the_sheet_is_in_the_trace() {
    for (name, record) in records() {
        let (sheet, trace) = (sheet(&record), trace(&record));
        let mut lines = trace.lines();
        for line in sheet.lines() {
            if line.starts_with("passed ") {
                let end = format!(" {line}");
                let fields = |one: &str| one.starts_with("fields ") && one.ends_with(&end);
                assert_eq!(trace.lines().filter(|one| fields(one)).count(), 1, "{name}");
            } else {
                assert!(lines.any(|one| one == line), "{name}: {line}");
            }
        }
        assert_eq!(lines.next(), None, "{name}: the last line is the sheet's");
        if sheet.contains(" field ") {
            assert_eq!(sheet, trace, "{name}");
        }
    }
}

fn energy(all: &[Amounts]) -> i128 {
    all.iter().map(|one| one.energy).sum()
}

fn distance(all: &[Amounts]) -> i128 {
    all.iter().map(|one| one.distance).sum()
}

/// Of a cycle the phases add up to it; they are the first ones, only the last
/// of them may be open, and all are there and finished where the cycle is.
#[test]
fn phases_add_up_to_their_cycle() {
    for (name, trace) in traces() {
        let told = Told::new(&trace);
        let ends = trace.lines().nth(2).unwrap().split(' ').count() - 3;
        let mut phases = told.amounts("phase");
        for cycle in told.amounts("cycle") {
            let (own, others) =
                phases.into_iter().partition(|phase: &Amounts| phase.names[1] == cycle.names[1]);
            phases = others;
            let own: Vec<Amounts> = own;
            assert_eq!((energy(&own), distance(&own)), (cycle.energy, cycle.distance), "{name}");
            let numbers: Vec<usize> = own.iter().map(|one| one.names[2].parse().unwrap()).collect();
            assert!(numbers.iter().copied().eq(1..=own.len()), "{name}");
            assert!(own.iter().rev().skip(1).all(|phase| phase.finished), "{name}");
            let all = own.len() == ends && own.iter().all(|phase| phase.finished);
            assert_eq!(all, cycle.finished, "{name}");
        }
        assert!(phases.is_empty(), "{name}: a phase without its cycle");
    }
}

/// Cycles and stretches add up to what the run has drawn and how often it was
/// outside; with the transfer before, that is the whole.
#[test]
fn cycles_and_stretches_add_up() {
    for (name, trace) in traces() {
        let told = Told::new(&trace);
        let (cycles, stretches) = (told.amounts("cycle"), told.amounts("stretch"));
        let drawn = told.number("drawn", 1);
        assert_eq!(energy(&cycles) + energy(&stretches), drawn, "{name}");
        let outside: i128 = cycles.iter().filter_map(|cycle| cycle.outside).sum();
        assert_eq!(outside, told.number("outside", 1), "{name}");
        let finished: Vec<&Amounts> = cycles.iter().filter(|cycle| cycle.finished).collect();
        assert_eq!(finished.len() as i128, told.number("cycles", 1), "{name}");
        let transfer = told.number("transfer", 2);
        assert_eq!(transfer + drawn, told.number("whole", 1), "{name}");
        for cycle in cycles {
            let rated = cycle.finished && cycle.energy >= 1 && cycle.distance >= 1;
            let rate = rated.then(|| 100 * cycle.energy / cycle.distance);
            assert_eq!(cycle.rate, rate, "{name}");
        }
    }
}

/// Where the run stopped, and how many were counted there.
#[test]
fn the_stop_and_the_counted_samples() {
    for (name, trace) in traces() {
        let told = Told::new(&trace);
        let counted = told.number("end", 2);
        let stop = told.word("end", 1) == Some("stop");
        assert_eq!(told.word("stop", 1).is_some(), stop, "{name}");
        assert!(counted <= told.number("offered", 1), "{name}");
        if told.word("stop", 1) != Some("cycle") {
            continue;
        }
        let (cycle, position) = (told.number("stop", 2), told.number("stop", 4));
        let behind_m = told.word("method", 1) == Some("shortened") && cycle >= 3;
        let m = if behind_m { told.number("method", 2) } else { 0 };
        let positions = 20 * told.number("cycle", 1);
        assert_eq!((cycle - 1) * positions + position + m, counted, "{name}");
        let last = told.amounts("cycle").pop().unwrap();
        assert_eq!(last.names[1], cycle.to_string(), "{name}");
        assert_eq!(last.outside, Some(told.number("tolerances", 3) + 1), "{name}");
    }
}

/// The weights add up to 1, and the figures come from what stands above them.
#[test]
fn the_figures_come_from_the_lines_above() {
    for (name, trace) in traces() {
        let told = Told::new(&trace);
        if told.word("weighted", 1).is_none() {
            assert!(told.word("weight", 1).is_none(), "{name}");
            continue;
        }
        let (above, below) = told.weights();
        let whole = told.number("whole", 1);
        assert_eq!(below, whole * (above.len() as i128 - 2), "{name}");
        assert_eq!(above.iter().sum::<i128>(), below, "{name}");
        let rates = told.amounts("cycle").into_iter().filter_map(|cycle| cycle.rate);
        let sum: i128 = rates.zip(&above).map(|(rate, weight)| rate * weight).sum();
        let (weighted, range) = (told.number("weighted", 1), told.number("range", 1));
        assert_eq!((sum / below, 5 * whole / (72 * weighted)), (weighted, range), "{name}");
        if told.word("ac", 1).is_some_and(|word| word != "-") {
            let sum = whole + told.number("transfer", 4);
            let ac = whole * told.number("recharge", 1) * 1_000_000 / (sum * range);
            assert_eq!(told.number("ac", 1), ac, "{name}");
        }
    }
}

/// A line of the list for each field, which begins where the one before ends;
/// the last one ends with the record, or is refused as on the sheet.
#[test]
fn the_list_fits_the_record() {
    for (name, record) in records() {
        let (list, sheet) = (fields(&record), sheet(&record));
        let mut offset = 0;
        for (at, line) in list.lines().enumerate() {
            let words: Vec<&str> = line.split(' ').collect();
            assert_eq!(words[..2], [(at + 1).to_string(), offset.to_string()], "{name}");
            if words[2] == "refused" {
                assert_eq!(sheet, format!("refused {} field {}\n", words[3], at + 1), "{name}");
                assert_eq!(list.lines().count(), at + 1, "{name}: the last line");
            } else {
                assert_eq!(record[offset], tag(words[2]), "{name}");
                let length = [record[offset + 1], record[offset + 2]];
                offset += 3 + usize::from(u16::from_be_bytes(length));
            }
        }
        let refused = sheet.contains(" field ");
        assert_eq!(list.contains(" refused "), refused, "{name}");
        assert!(refused || offset == record.len(), "{name}");
    }
}

/// The tag of the field that the list calls so.
fn tag(word: &str) -> u8 {
    let words =
        ["mark", "vehicle", "cycle", "tolerances", "own", "before", "recharge", "stretches"];
    let at = words.iter().position(|one| *one == word);
    match word {
        "other" => 5,
        "after" => 6,
        _ => at.expect(word) as u8 + 1,
    }
}

/// Fields, own blocks, blocks passed over and samples are as many as the trace
/// says; each own block begins where the one before it ends.
#[test]
fn the_list_fits_the_trace() {
    for (name, record) in records() {
        let (list, trace) = (fields(&record), trace(&record));
        let (mut own, mut other, mut offered) = (0, 0, 0);
        for line in list.lines() {
            match line.split(' ').collect::<Vec<&str>>()[2..] {
                ["own", first, count] => {
                    assert_eq!(first, offered.to_string(), "{name}");
                    (own, offered) = (own + 1, offered + count.parse::<usize>().unwrap());
                }
                ["other", _] => other += 1,
                ["refused", "5", "sample", j, ..] => {
                    let j: usize = j.parse().unwrap();
                    assert!((offered..offered + 200).contains(&j), "{name}");
                }
                _ => {}
            }
        }
        if !trace.starts_with("refused") {
            let count = list.lines().count();
            let line = format!("\nfields {count} blocks {own} passed {other}\noffered {offered}\n");
            assert!(trace.contains(&line), "{name}");
        }
    }
}
