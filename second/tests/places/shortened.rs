//! The shortened method: where its samples end, where it stops, and what its E
//! was like.

use super::{first_samples, Place};
use second::record::Record;
use second::run::{End, Run, Sample};
use second::shortened::Stretches;

/// What the run shows of the shortened method.
pub fn places(record: &Record, stretches: &Stretches, run: &Run) -> Vec<Place> {
    let mut all = joint_places(record, stretches, run);
    all.extend(end_places(record, stretches, run));
    all.extend(cycle_stop_places(record, run));
    all.extend(few_places(record, run));
    let first = first_of_e(record, stretches);
    if run.counted > first {
        let samples = &record.samples[first..];
        let e = E { stretches, tolerance: record.tolerances.speed as i16, samples };
        all.extend(e.reached_places(record, run));
        all.extend(e.stop_places(record, run));
        all.extend(e.row_places(run));
    }
    all
}

fn first_of_e(record: &Record, stretches: &Stretches) -> usize {
    4 * record.cycle.positions() as usize + stretches.length
}

/// The joints: cycle 1 and 2, cycle 2 and M, M and cycle 3, cycle 3 and 4,
/// cycle 4 and E. The samples end one before the last before it, with that
/// one, with the first behind it, or with the one after that.
const JOINTS: [[&str; 4]; 5] = [
    [
        "ends before the last of cycle 1",
        "ends with the last of cycle 1",
        "ends with the first of cycle 2",
        "ends with the second of cycle 2",
    ],
    [
        "ends before the last of cycle 2",
        "ends with the last of cycle 2",
        "ends with the first of M",
        "ends with the second of M",
    ],
    [
        "ends before the last of M",
        "ends with the last of M",
        "ends with the first of cycle 3",
        "ends with the second of cycle 3",
    ],
    [
        "ends before the last of cycle 3",
        "ends with the last of cycle 3",
        "ends with the first of cycle 4",
        "ends with the second of cycle 4",
    ],
    [
        "ends before the last of cycle 4",
        "ends with the last of cycle 4",
        "ends with the first of E",
        "ends with the second of E",
    ],
];

fn joint_places(record: &Record, stretches: &Stretches, run: &Run) -> Vec<Place> {
    let firsts = first_samples(record);
    let joints = [firsts[1], 2 * firsts[1], firsts[2], firsts[3], first_of_e(record, stretches)];
    let ends_at = |end: usize| run.end == End::None && record.samples.len() == end;
    let four = |joint: usize| [joint - 1, joint, joint + 1, joint + 2];
    let places = joints.iter().zip(JOINTS).flat_map(|(joint, names)| {
        four(*joint).into_iter().zip(names).map(move |(end, name)| (ends_at(end), name))
    });
    places.collect()
}

fn end_places(record: &Record, stretches: &Stretches, run: &Run) -> Vec<Place> {
    let (offered, firsts) = (record.samples.len(), first_samples(record));
    let goes_on = run.end == End::None;
    let inner = &record.cycle.phase_ends[..record.cycle.phase_ends.len() - 1];
    let phase_joint = |firsts: &[usize], samples: usize| {
        let at_end = |first: &usize| inner.iter().any(|end| first + 20 * *end as usize == samples);
        goes_on && firsts.iter().any(at_end)
    };
    let in_m = goes_on && (2 * firsts[1] + 2..firsts[2]).contains(&offered);
    let four = run.finished.len() == 4;
    vec![
        (in_m, "ends inside M"),
        (in_m && stretches.length == 4_000_000, "ends inside the longest M"),
        (goes_on && offered > first_of_e(record, stretches) + 2, "ends inside E"),
        (goes_on && offered > 64 * firsts[1], "more samples than 64 cycles have"),
        (goes_on && offered > 64 * firsts[1] && four, "more than 64 cycles have, four finished"),
        (four && stretches.length == 1, "the shortest M, four cycles finished"),
        (phase_joint(&firsts[..2], offered), "ends with the last of a phase before M"),
        (
            phase_joint(&firsts[..2], offered.saturating_sub(1)),
            "ends with the first of a phase before M",
        ),
        (phase_joint(&firsts[2..], offered), "ends with the last of a phase behind M"),
        (
            phase_joint(&firsts[2..], offered.saturating_sub(1)),
            "ends with the first of a phase behind M",
        ),
    ]
}

/// Stops by allowance: at the first position, at the last one, between them.
const STOPS: [[&str; 3]; 4] = [
    ["stop at the first of cycle 1", "stop at the last of cycle 1", "stop inside cycle 1"],
    ["stop at the first of cycle 2", "stop at the last of cycle 2", "stop inside cycle 2"],
    ["stop at the first of cycle 3", "stop at the last of cycle 3", "stop inside cycle 3"],
    ["stop at the first of cycle 4", "stop at the last of cycle 4", "stop inside cycle 4"],
];

fn cycle_stop_places(record: &Record, run: &Run) -> Vec<Place> {
    let last = record.cycle.positions() as usize - 1;
    let places = first_samples(record).into_iter().zip(STOPS).flat_map(|(first, names)| {
        let at = run.counted.checked_sub(first).filter(|_| run.end == End::Stop);
        let inside = at.is_some_and(|at| 0 < at && at < last);
        [at == Some(0), at == Some(last), inside].into_iter().zip(names)
    });
    places.collect()
}

/// Refusal 10: how many cycles were finished.
fn few_places(record: &Record, run: &Run) -> Vec<Place> {
    let few = |cycles: usize| record.close(run) == Err(10) && run.finished.len() == cycles;
    vec![
        (few(0), "10 with no cycle finished"),
        (few(1), "10 with one cycle finished"),
        (few(2), "10 with two cycles finished"),
        (few(3), "10 with three cycles finished"),
    ]
}

/// Stretch E as it was offered; at least one of its samples is counted.
struct E<'a> {
    stretches: &'a Stretches,
    tolerance: i16,
    samples: &'a [Sample],
}

impl E<'_> {
    fn too_slow(&self, sample: &Sample) -> bool {
        sample.speed + self.tolerance < self.stretches.set_speed
    }

    fn reached(&self) -> Option<usize> {
        self.samples.iter().position(|sample| sample.speed >= self.stretches.set_speed)
    }

    /// Are there 80 in a row that are too slow?
    fn has_80(&self, samples: &[Sample]) -> bool {
        samples.windows(80).any(|row| row.iter().all(|sample| self.too_slow(sample)))
    }

    fn reached_places(&self, record: &Record, run: &Run) -> Vec<Place> {
        let (u, positions) = (self.stretches.set_speed, record.cycle.positions() as usize);
        let fast = |samples: &[Sample]| samples.iter().any(|sample| sample.speed >= u);
        let (reached, slow) = (self.reached(), self.has_80(self.samples));
        let m = 2 * positions..2 * positions + self.stretches.length;
        let in_cycles =
            fast(&record.samples[..m.start]) || fast(&record.samples[m.end..m.end + 2 * positions]);
        let in_m = fast(&record.samples[m]);
        let never = run.end == End::None && reached.is_none() && slow;
        let before = reached.map_or(&[][..], |at| &self.samples[..at]);
        vec![
            (never && !in_cycles && !in_m, "the set speed never reached, 80 too slow"),
            (never && in_cycles && !in_m, "reached in a cycle only, 80 too slow in E"),
            (never && in_m && !in_cycles, "reached in M only, 80 too slow in E"),
            (self.has_80(before), "80 too slow before the set speed is reached"),
            (
                before.iter().any(|sample| sample.speed == u - 1),
                "set speed less 1 before it is reached",
            ),
            (reached == Some(0), "reached by the first of E"),
            (
                reached.is_some_and(|at| at > 0 && at + 1 == self.samples.len()),
                "reached by the last of E",
            ),
        ]
    }

    fn stop_places(&self, record: &Record, run: &Run) -> Vec<Place> {
        let first = record.samples.len() - self.samples.len();
        let stop = run.end == End::Stop;
        let stopping = stop.then(|| self.samples[run.counted - first]);
        let next = self.samples.get(run.counted + 1 - first).filter(|_| stop);
        let u = self.stretches.set_speed;
        let exact = stopping.is_some_and(|one| one.speed + self.tolerance == u - 1);
        let figures = record.close(run).is_ok();
        vec![
            (stop && next.is_none(), "stop in E, nothing behind"),
            (next.is_some_and(|one| self.too_slow(one)), "stop in E, 81 too slow"),
            (next.is_some_and(|one| !self.too_slow(one)), "stop in E, others behind"),
            (exact, "the stopping sample is 1 too slow"),
            (stop && run.outside == 0, "stop in E, none outside"),
            (stop && run.outside > 0, "stop in E, some outside"),
            (stop && figures, "stop in E and figures"),
            (run.end == End::None && figures, "no stop and figures"),
            (stop && u == self.tolerance + 1, "stop in E by standing still only"),
            (stop && self.tolerance == 0, "stop in E without tolerance"),
        ]
    }

    /// Rows of samples too slow, from the one on that reached the set speed.
    fn row_places(&self, run: &Run) -> Vec<Place> {
        let Some(reached) = self.reached() else { return Vec::new() };
        let (u, rest) = (self.stretches.set_speed, &self.samples[reached..]);
        let rows: Vec<&[Sample]> =
            rest.chunk_by(|one, next| self.too_slow(one) == self.too_slow(next)).collect();
        let slow = |row: &[Sample], length: usize| row.len() == length && self.too_slow(&row[0]);
        let at_edge = |row: &[Sample]| row[0].speed + self.tolerance == u;
        let three = |length: usize, one: fn(&Sample, i16) -> bool| {
            rows.windows(3).any(|rows| {
                let broken = rows[1].len() == 1 && one(&rows[1][0], u);
                slow(rows[0], 79) && broken && slow(rows[2], length)
            })
        };
        let edge = rows.windows(3).any(|rows| {
            slow(rows[0], 79) && rows[1].len() == 1 && at_edge(rows[1]) && slow(rows[2], 79)
        });
        let (stop, none) = (run.end == End::Stop, run.end == End::None);
        let below = rest.windows(80).any(|row| row.iter().all(|sample| sample.speed < u));
        vec![
            (none && rows.last().is_some_and(|row| slow(row, 79)), "79 too slow and no more"),
            (none && three(79, |_, _| true), "79 too slow, one not, 79 too slow"),
            (stop && three(80, |one, u| one.speed < u), "79 too slow, one held, 80 too slow"),
            (stop && three(80, |one, u| one.speed >= u), "79 too slow, one reached, 80 too slow"),
            (none && edge && self.tolerance > 0, "79 too slow, one at the edge, 79 too slow"),
            (none && below && self.tolerance >= u, "80 slower, but the tolerance is as great"),
            (none && below && self.tolerance < u, "80 slower within the tolerance"),
        ]
    }
}
