//! Which places of the rules a record shows, by name. What both methods have is
//! asked for by two names.

mod shortened;
mod stretches;

use second::closing::{close, recharge};
use second::field::{cut, signed_number, Cut};
use second::record::{read, Record, Refused};
use second::run::{End, Run};

/// Whether the record shows a place, and the place's name.
pub type Place = (bool, &'static str);

/// A place with the name that it has in the record's method.
pub type Named = (bool, String);

/// The places that the record is asked for.
pub fn places(bytes: &[u8]) -> Vec<Named> {
    let read = read(bytes);
    let mut all = named("", field_places(bytes, &read));
    all.extend(named("field 8: ", stretches::places(bytes, &read)));
    match &read {
        Ok(record) => all.extend(record_places(record)),
        Err(refused) => all.extend(refused_places(bytes, refused).unwrap_or_default()),
    }
    all
}

fn named(method: &str, places: Vec<Place>) -> Vec<Named> {
    places.into_iter().map(|(shown, place)| (shown, format!("{method}{place}"))).collect()
}

fn method(record: &Record) -> &'static str {
    if record.stretches.is_some() {
        "shortened: "
    } else {
        ""
    }
}

fn record_places(record: &Record) -> Vec<Named> {
    let run = record.run();
    let mut all = run_places(record, &run);
    match &record.stretches {
        Some(stretches) => all.extend(shortened::places(record, stretches, &run)),
        None => {
            all.extend(end_places(record, &run));
            all.extend(stop_places(record, &run));
            all.extend(limit_places(record, &run));
        }
    }
    if record.close(&run) != Err(10) {
        all.extend(closing_places(record, &run));
        all.extend(range_places(record, &run));
        all.extend(recharge_places(record, &run));
    }
    named(method(record), all)
}

/// The number of the first sample of each cycle.
fn first_samples(record: &Record) -> Vec<usize> {
    let positions = record.cycle.positions() as usize;
    match &record.stretches {
        None => (0..64).map(|cycle| cycle * positions).collect(),
        Some(stretches) => {
            let behind = 2 * positions + stretches.length;
            vec![0, positions, behind, behind + positions]
        }
    }
}

/// Field 6 at its limits, which are those before it is doubled; and blocks of 1.
fn field_places(bytes: &[u8], read: &Result<Record, Refused>) -> Vec<Place> {
    let most = 10_000_000_000_000;
    let (mut left, mut field, mut all) = (bytes, 0, Vec::new());
    while let Cut::Whole(one, rest) = cut(left) {
        (left, field) = (rest, field + 1);
        if one.tag == 5 {
            all.push((read.is_ok() && one.value.len() == 27, "block of 1"));
        } else if one.tag == 6 {
            let refused = *read == Err(Refused { number: 14, field });
            let at = |kind, energy, as_wished: bool| {
                as_wished && one.value[0] == kind && signed_number(&one.value[1..]) == energy
            };
            all.extend([
                (at(0, most, read.is_ok()), "6 before: the limit"),
                (at(0, -most, read.is_ok()), "6 before: the limit below 0"),
                (at(0, most + 1, refused), "6 before: beyond the limit"),
                (at(0, -most - 1, refused), "6 before: beyond the limit below 0"),
                (at(1, most, read.is_ok()), "6 after: the limit"),
                (at(1, -most, read.is_ok()), "6 after: the limit below 0"),
                (at(1, most + 1, refused), "6 after: beyond the limit"),
                (at(1, -most - 1, refused), "6 after: beyond the limit below 0"),
                (at(0, most / 2 + 1, read.is_ok()), "6 before: beyond the limit if doubled"),
                (at(1, most / 2 + 1, read.is_ok()), "6 after: beyond the limit if doubled"),
            ]);
        }
    }
    all
}

/// A block refused 5 or 6 behind a stop, or with the sample after cycle 64.
fn refused_places(bytes: &[u8], refused: &Refused) -> Option<Vec<Named>> {
    let mut left = bytes;
    for _ in 1..refused.field {
        let Cut::Whole(_, rest) = cut(left) else { return None };
        left = rest;
    }
    let Cut::Whole(block, _) = cut(left) else { return None };
    let record = read(&bytes[..bytes.len() - left.len()]).ok()?;
    let stop = record.run().end == End::Stop;
    let mut all = vec![
        (refused.number == 5 && stop, "refused 5 behind a stop"),
        (refused.number == 6 && stop, "refused 6 behind a stop"),
    ];
    if record.stretches.is_none() {
        let offered = record.samples.len() + block.value.len().saturating_sub(21) / 6;
        let limit = !stop && offered > 64 * record.cycle.positions() as usize;
        all.extend([
            (refused.number == 5 && limit, "refused 5 after cycle 64"),
            (refused.number == 6 && limit, "refused 6 after cycle 64"),
        ]);
    }
    Some(named(method(&record), all))
}

fn run_places(record: &Record, run: &Run) -> Vec<Place> {
    let closed = &record.samples[..run.closed];
    let earlier: i64 = closed.iter().map(|sample| 2 * sample.drawn()).sum();
    let positions = record.cycle.positions() as usize;
    let distance_told = run.finished.iter().zip(first_samples(record)).any(|(cycle, first)| {
        let lap = &closed[first..first + positions];
        cycle.distance != lap.iter().map(|sample| 2 * i128::from(sample.speed)).sum()
    });
    vec![
        (run.outside > 0 && run.end == End::None, "outside without a stop"),
        (run.drawn < 0, "drawn below 0"),
        (run.drawn % 2 != 0, "drawn odd"),
        (record.passed > 0, "blocks passed over"),
        (run.drawn != i128::from(earlier), "energy told from twice the earlier samples'"),
        (distance_told, "distance told from twice the earlier samples'"),
    ]
}

/// Where the samples end, while the run goes on.
fn end_places(record: &Record, run: &Run) -> Vec<Place> {
    let (offered, positions) = (record.samples.len(), record.cycle.positions() as usize);
    let (inner, last_end) = record.cycle.phase_ends.split_at(record.cycle.phase_ends.len() - 1);
    let goes_on = run.end == End::None && offered > 0;
    let phase_joint = |place: usize| inner.iter().any(|end| 20 * *end as usize == place);
    assert_eq!(20 * last_end[0] as usize, positions);
    vec![
        (offered == 0, "no samples"),
        (offered == 1 && goes_on, "one sample"),
        (goes_on && phase_joint(offered % positions), "ends with the last position of a phase"),
        (goes_on && phase_joint((offered - 1) % positions), "ends with the first of a phase"),
        (goes_on && offered.is_multiple_of(positions), "ends with the last position of a cycle"),
        (goes_on && offered == 3 * positions, "ends with the last position of cycle 3"),
        (goes_on && offered == 3 * positions + 1, "ends with the first position of cycle 4"),
        (goes_on && offered > 1 && offered % positions == 1, "ends with the first of a cycle"),
    ]
}

fn stop_places(record: &Record, run: &Run) -> Vec<Place> {
    let (offered, positions) = (record.samples.len(), record.cycle.positions() as usize);
    let stop = run.end == End::Stop;
    let first = stop && run.counted > 0 && run.counted.is_multiple_of(positions);
    let last = stop && run.counted % positions == positions - 1;
    vec![
        (stop && run.counted == 0, "stop by the very first sample"),
        (stop && run.counted == 0 && offered == 1, "stop by the only sample"),
        (first, "stop at a first position"),
        (first && run.finished.len() >= 3, "stop at a first position, with figures"),
        (first && offered == run.counted + 1, "stop at a first position, nothing behind"),
        (last, "stop at a last position"),
        (last && run.finished.len() >= 3, "stop at a last position, with figures"),
        (last && offered == run.counted + 1, "stop at a last position, nothing behind"),
        (last && run.counted / positions == 63, "stop at the end of cycle 64"),
        (stop && offered > run.counted + 1, "samples behind a stop"),
    ]
}

fn limit_places(record: &Record, run: &Run) -> Vec<Place> {
    let positions = record.cycle.positions() as usize;
    let (offered, most) = (record.samples.len(), 64 * positions);
    let (limit, none) = (run.end == End::Limit, run.end == End::None);
    let gates = record.cycle.gate_table(record.tolerances.speed, record.tolerances.time);
    let far = limit && !gates[0].takes(record.samples[most].speed);
    vec![
        (none && offered == most - 1, "one short of 64 cycles"),
        (none && offered == most, "64 cycles and no sample after"),
        (limit && offered == most + 1, "64 cycles and one sample after"),
        (limit && offered > most + 1, "64 cycles and more samples after"),
        (far, "the sample after cycle 64 is outside"),
        (far && record.tolerances.allowance == 0, "the sample after cycle 64 would stop the run"),
        (limit && record.close(run).is_ok(), "limit and figures"),
    ]
}

/// Both sides of the limits of 11 and 12.
fn closing_places(record: &Record, run: &Run) -> Vec<Place> {
    let energy = record.energy(run);
    let closing = close(&run.finished, energy);
    let (good, twelve) = (closing.is_ok() || closing == Err(13), closing == Err(12));
    let first_two = run.finished[0].energy + run.finished[1].energy;
    let least = run.finished.iter().map(|cycle| cycle.energy).min().unwrap();
    let mut all = vec![
        (closing == Err(11) && least == 0, "some e_c is 0"),
        (good && least == 1, "e_c is 1 and good"),
        (closing == Err(11) && least > 0 && energy == first_two - 1, "E is e1 + e2 less 1"),
        (good && energy == first_two, "E is e1 + e2 and good"),
        (good && run.end == End::Stop, "stop and figures"),
    ];
    for cycle in run.finished.iter().filter(|_| good || twelve) {
        let q = (cycle.distance > 0).then(|| 100 * cycle.energy / cycle.distance);
        all.extend([
            (q.is_none(), "d_c is 0"),
            (good && cycle.distance == 1, "d_c is 1 and good"),
            (q == Some(0), "q 0"),
            (good && q == Some(1), "q 1"),
            (good && q == Some(10_000_000), "q at its limit"),
            (q == Some(10_000_001), "q above its limit"),
        ]);
    }
    all
}

/// Both sides of range 1.
fn range_places(record: &Record, run: &Run) -> Vec<Place> {
    let energy = record.energy(run);
    let range = |energy| close(&run.finished, energy).map(|figures| figures.range);
    vec![
        (range(energy) == Ok(1), "range 1"),
        (range(energy) == Ok(1) && range(energy - 1) == Err(13), "range 1 by the least E"),
        (range(energy) == Err(13) && range(energy + 1) == Ok(1), "range 0, 1 with one unit more"),
    ]
}

/// Both sides of the limits of the recharge figure.
fn recharge_places(record: &Record, run: &Run) -> Vec<Place> {
    let energy = record.energy(run);
    let Ok(figures) = close(&run.finished, energy) else {
        return Vec::new();
    };
    let sum = energy + record.after;
    let asked = record.recharge.is_some();
    let figure = |after| recharge(&figures, energy, after, record.recharge);
    let (here, less) = (figure(record.after), figure(record.after - 1));
    let more = figure(record.after + 1);
    let most = Ok(Some(10_000_000));
    vec![
        (sum < 1 && here == Ok(None), "E + F < 1 without field 7"),
        (asked && sum == -1, "E + F is -1"),
        (asked && sum == 0, "E + F is 0"),
        (asked && sum == 1, "E + F is 1"),
        (asked && sum == 2, "E + F is 2"),
        (here == most, "recharge figure at its limit"),
        (here == most && less == Err(12), "recharge figure at its limit by the least E + F"),
        (here == Err(12) && more == most, "recharge figure above its limit by one unit less"),
        (here == Ok(Some(0)) && less == Ok(Some(1)), "figure 0 by the least E + F"),
        (here == Ok(Some(1)) && more == Ok(Some(0)), "figure 1 by one unit less"),
    ]
}
