//! The run against a naive judge that takes sample after sample and keeps
//! document 01's nine numbers and its map, with document 02's open interval;
//! against the sums over the closed intervals; and the promise about blocks.
//! All of it over both methods.

mod common;

use second::chance::Chance;
use second::cycle::{Cycle, Verdict};
use second::field::{cut, Cut};
use second::make::make;
use second::record::{read, Record};
use second::run::{Begun, End, Finished, Part, Run, Sample};
use second::sheet::sheet;

/// Where a sample stands: in a cycle, counted from 0, at a position; or in M or E.
#[derive(Clone, Copy, PartialEq)]
enum Stand {
    Cycle(usize, i128),
    M,
    E,
}

/// Where the sample of this number stands in the record's method.
fn stand(record: &Record, j: usize) -> Stand {
    let n = record.cycle.positions() as usize;
    let in_cycle = |j: usize| Stand::Cycle(j / n, (j % n) as i128);
    match record.stretches {
        None => in_cycle(j),
        Some(_) if j < 2 * n => in_cycle(j),
        Some(stretches) if j < 2 * n + stretches.length => Stand::M,
        Some(stretches) if j < 4 * n + stretches.length => in_cycle(j - stretches.length),
        Some(_) => Stand::E,
    }
}

/// The interval that the next sample closes: where its earlier sample stands,
/// and that sample.
struct Open {
    stand: Stand,
    earlier: Sample,
}

/// The state of a naive judge.
struct Judge {
    end: End,
    counted: usize,
    closed: usize,
    open: Option<Open>,
    /// Nine numbers a cycle: phase energies, phase distances, outside count.
    ledger: Vec<[i128; 9]>,
    map: Vec<bool>,
    finished: usize,
    /// Energy and distance of M and of E, outside the ledger.
    stretches: [[i128; 2]; 2],
    /// Whether a sample of E reached the set speed, and how many are too slow.
    reached: bool,
    slow: usize,
}

impl Judge {
    fn new() -> Judge {
        Judge {
            end: End::None,
            counted: 0,
            closed: 0,
            open: None,
            ledger: vec![[0; 9]],
            map: Vec::new(),
            finished: 0,
            stretches: [[0; 2]; 2],
            reached: false,
            slow: 0,
        }
    }

    /// A sample closes the open interval, then is judged, then begins its own.
    fn take(&mut self, record: &Record, sample: &Sample) {
        if self.end != End::None {
            return;
        }
        self.close(&record.cycle, sample);
        if record.stretches.is_none() && self.finished == 64 {
            self.end = End::Limit;
            return;
        }
        let stand = stand(record, self.counted);
        let stops = match stand {
            Stand::Cycle(cycle, position) => self.stops(record, cycle, position, sample),
            Stand::M => false,
            Stand::E => self.stops_in_e(record, sample),
        };
        if stops {
            self.end = End::Stop;
            return;
        }
        self.counted += 1;
        self.open = Some(Open { stand, earlier: *sample });
    }

    /// Enters the open interval where its earlier sample stands.
    fn close(&mut self, cycle: &Cycle, later: &Sample) {
        let Some(Open { stand, earlier }) = self.open.take() else {
            return;
        };
        let energy = product(&earlier) + product(later);
        let distance = i128::from(earlier.speed) + i128::from(later.speed);
        self.closed += 1;
        if let Stand::Cycle(row, position) = stand {
            let phase = cycle.phase_ends.iter().position(|end| position / 20 < *end).unwrap();
            self.ledger[row][phase] += energy;
            self.ledger[row][4 + phase] += distance;
            if position + 1 == cycle.positions() {
                self.finished += 1;
            }
        } else {
            let numbers = &mut self.stretches[usize::from(stand == Stand::E)];
            numbers[0] += energy;
            numbers[1] += distance;
        }
    }

    /// In E: from the sample on that reaches the set speed, true at the 80th
    /// of consecutive samples with v + s < u.
    fn stops_in_e(&mut self, record: &Record, sample: &Sample) -> bool {
        let (u, s) = (record.stretches.unwrap().set_speed.into(), record.tolerances.speed);
        let v = i128::from(sample.speed);
        if v >= u {
            self.reached = true;
        }
        if self.reached && v + s < u {
            self.slow += 1;
        } else {
            self.slow = 0;
        }
        self.slow == 80
    }

    /// Marks and counts an outside sample; true when the count is above the allowance.
    fn stops(&mut self, record: &Record, row: usize, position: i128, sample: &Sample) -> bool {
        if position == 0 {
            self.map = vec![false; record.cycle.positions() as usize];
            self.ledger.resize(row + 1, [0; 9]);
        }
        let tolerances = &record.tolerances;
        let band = record.cycle.band_by_walking(position, tolerances.time);
        if band.verdict(tolerances.speed, sample.speed.into()) == Verdict::Inside {
            return false;
        }
        self.map[position as usize] = true;
        self.ledger[row][8] += 1;
        self.ledger[row][8] > tolerances.allowance
    }

    /// The same run in the form of `Run`, but for its parts.
    fn run(&self) -> Run {
        let energy = |nine: &[i128; 9]| nine[..4].iter().sum::<i128>();
        let [m, e] = self.stretches;
        let finished = self.ledger[..self.finished]
            .iter()
            .map(|nine| Finished { energy: energy(nine), distance: nine[4..8].iter().sum() });
        Run {
            end: self.end,
            counted: self.counted,
            closed: self.closed,
            outside: self.ledger.iter().map(|nine| nine[8]).sum(),
            drawn: self.ledger.iter().map(energy).sum::<i128>() + m[0] + e[0],
            finished: finished.collect(),
            begun: Vec::new(),
        }
    }

    /// Does a part of the run have the ledger's numbers of its cycle, phase by
    /// phase and all together, or those of its stretch?
    fn knows(&self, record: &Record, begun: &Begun) -> bool {
        let lap = &begun.lap;
        let whole = [lap.energy, lap.distance].map(i128::from);
        let Part::Cycle(number) = begun.part else {
            return whole == self.stretches[usize::from(begun.part == Part::E)];
        };
        let nine = &self.ledger[number - 1];
        let mut ours = [0; 9];
        for (at, phase) in record.phases(begun).iter().enumerate() {
            (ours[at], ours[4 + at]) = (phase.energy.into(), phase.distance.into());
        }
        ours[8] = lap.outside.into();
        ours == *nine && whole == [nine[..4].iter().sum(), nine[4..8].iter().sum()]
    }
}

/// -(voltage × current).
fn product(sample: &Sample) -> i128 {
    -(i128::from(sample.voltage) * i128::from(sample.current))
}

/// The records of the first small seeds that are not refused.
fn some_records() -> impl Iterator<Item = (u64, Record)> {
    (1..=1500).filter_map(|seed| Some((seed, read(&make("small", seed, &[]).unwrap()).ok()?)))
}

#[test]
fn the_naive_judge_agrees() {
    for (seed, record) in some_records() {
        let mut judge = Judge::new();
        for sample in &record.samples {
            judge.take(&record, sample);
            let ones = judge.map.iter().filter(|outside| **outside).count() as i128;
            assert_eq!(ones, judge.ledger.last().unwrap()[8], "seed {seed}");
        }
        let run = record.run();
        for begun in &run.begun {
            assert!(judge.knows(&record, begun), "seed {seed}: {begun:?}");
        }
        assert_eq!(Run { begun: Vec::new(), ..run }, judge.run(), "seed {seed}");
    }
}

/// Of n offered with m counted, min(n - 1, m) intervals are closed; a cycle is
/// finished when all its 20T are. Energies and distances are sums over them.
#[test]
fn sums_over_the_closed_intervals() {
    for (seed, record) in some_records() {
        let (run, samples) = (record.run(), &record.samples);
        assert_eq!(run.closed, run.counted.min(samples.len().saturating_sub(1)), "seed {seed}");
        let energy = |j: usize| product(&samples[j]) + product(&samples[j + 1]);
        let distance = |j: usize| i128::from(samples[j].speed) + i128::from(samples[j + 1].speed);
        assert_eq!(run.drawn, (0..run.closed).map(energy).sum::<i128>(), "seed {seed}");
        let positions = record.cycle.positions() as usize;
        let finished = last_positions(&record, run.closed).map(|last| {
            let all = last + 1 - positions..last + 1;
            Finished { energy: all.clone().map(energy).sum(), distance: all.map(distance).sum() }
        });
        assert_eq!(run.finished, finished.collect::<Vec<Finished>>(), "seed {seed}");
        let limit = record.stretches.is_none() && samples.len() > 64 * positions;
        assert_eq!(run.end == End::Limit, run.end != End::Stop && limit, "seed {seed}");
    }
}

/// The numbers of the samples at the last position of a cycle, as far as their
/// intervals are closed.
fn last_positions(record: &Record, closed: usize) -> impl Iterator<Item = usize> + '_ {
    let last = record.cycle.positions() - 1;
    (0..closed).filter(move |j| matches!(stand(record, *j), Stand::Cycle(_, p) if p == last))
}

/// Cuts every own block of a record into blocks by chance, foreign ones stay.
fn cut_anew(chance: &mut Chance, record: &[u8]) -> Vec<u8> {
    let vehicle = &record[10..27];
    let mut left = record;
    let mut anew = Vec::new();
    while let Cut::Whole(field, rest) = cut(left) {
        if field.tag == 5 && field.value[..17] == *vehicle {
            let first = u32::from_be_bytes(field.value[17..21].try_into().unwrap());
            anew.extend(smaller_blocks(chance, vehicle, first, &field.value[21..]));
        } else {
            anew.extend(&left[..left.len() - rest.len()]);
        }
        left = rest;
    }
    anew
}

fn smaller_blocks(chance: &mut Chance, vehicle: &[u8], first: u32, samples: &[u8]) -> Vec<u8> {
    let size = 6 * (1 + chance.below(50));
    let mut blocks = Vec::new();
    for (at, part) in samples.chunks(size).enumerate() {
        let number = first + (at * size / 6) as u32;
        let value = [vehicle, &number.to_be_bytes(), part].concat();
        blocks.extend(second::write::field(5, &value));
    }
    blocks
}

#[test]
fn other_blocks_give_the_same_sheet() {
    let chance = &mut Chance::new(3);
    for seed in 1..=1500 {
        let record = make("small", seed, &[]).unwrap();
        if read(&record).is_ok() {
            assert_eq!(sheet(&cut_anew(chance, &record)), sheet(&record), "seed {seed}");
        }
    }
}

/// A bad sample behind the stopping one refuses the block entire.
#[test]
fn a_bad_sample_behind_the_stop() {
    use common::{refused, sheet_of, start, BAD, GOOD, OWN};
    use second::write::{block, tolerances, Raw};
    let fast = Raw { speed: 131, ..GOOD };
    let mut fields = start();
    fields[3] = tolerances([30, 20, 0]);
    fields.push(block(OWN, 0, &[fast, GOOD, BAD]));
    assert_eq!(sheet_of(&fields), refused(5, 5));
    fields[4] = block(OWN, 0, &[fast, GOOD]);
    assert!(sheet_of(&fields).contains("end stop 0\ncycles 0\noutside 1\n"));
    fields.push(block(OWN, 2, &[BAD]));
    assert_eq!(sheet_of(&fields), refused(5, 6));
    fields[5] = block(OWN, 0, &[GOOD]);
    assert_eq!(sheet_of(&fields), refused(6, 6));
}
