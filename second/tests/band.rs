//! The tables of lo and hi, and of gates, against a naive walk of the window
//! taken straight from the paper's sentence.

use second::bench::Question;
use second::chance::Chance;
use second::cycle::Cycle;
use second::draft::some_phases;
use second::small::{some_points, some_tolerances};
use second::write::cycle_value;

/// Twenty times the target: "(20-r) × point k + r × point k+1; at place 20T
/// it is 20 × point T".
fn target(points: &[i128], place: i128) -> i128 {
    let (k, r) = ((place / 20) as usize, place % 20);
    if place == 20 * (points.len() as i128 - 1) {
        20 * points[points.len() - 1]
    } else {
        (20 - r) * points[k] + r * points[k + 1]
    }
}

/// "the window is the grid from max(0, p-w) to min(20T, p+w)".
fn walk(points: &[i128], p: i128, w: i128) -> (i128, i128) {
    let last = 20 * (points.len() as i128 - 1);
    let (mut lo, mut hi) = (i128::MAX, i128::MIN);
    for place in 0..=last {
        if place >= p - w && place <= p + w {
            lo = lo.min(target(points, place));
            hi = hi.max(target(points, place));
        }
    }
    (lo, hi)
}

fn some_cycle(chance: &mut Chance) -> Cycle {
    let seconds = chance.between(2, 8) as usize;
    let value = cycle_value(&some_phases(chance, seconds), &some_points(chance, seconds, 0, 1500));
    Cycle::from_bytes(&value).unwrap()
}

#[test]
fn table_of_lo_and_hi() {
    let chance = &mut Chance::new(7);
    for _ in 0..400 {
        let cycle = some_cycle(chance);
        let w = chance.pick(&[0, 1, 5, 19, 20, 21, 39, 40]);
        for (p, band) in cycle.band_table(w).iter().enumerate() {
            assert_eq!((band.lo, band.hi), walk(&cycle.points, p as i128, w));
            assert_eq!(*band, cycle.band_by_walking(p as i128, w));
        }
    }
}

/// "inside when lo <= 20v + 20s and 20v <= hi + 20s", for every speed there is.
#[test]
fn table_of_gates() {
    let chance = &mut Chance::new(8);
    for _ in 0..25 {
        let cycle = some_cycle(chance);
        let [s, w, _] = some_tolerances(chance).map(i128::from);
        let gates = cycle.gate_table(s, w);
        assert_eq!(gates.len() as i128, cycle.positions());
        for (p, gate) in gates.iter().enumerate() {
            let (lo, hi) = walk(&cycle.points, p as i128, w);
            for v in 0..=1500i16 {
                let v20 = 20 * i128::from(v);
                let inside = lo <= v20 + 20 * s && v20 <= hi + 20 * s;
                assert_eq!(gate.least <= v && v <= gate.most, inside);
            }
        }
    }
}

/// The bench controller's verdict is the judge's.
#[test]
fn bench_verdict_is_the_gate() {
    let chance = &mut Chance::new(9);
    for _ in 0..2_000 {
        let cycle = some_cycle(chance);
        let [s, w, allowance] = some_tolerances(chance);
        let position = chance.below(cycle.positions() as usize);
        let speed = chance.between16(0, 1500);
        let numbers: Vec<u16> = cycle.points.iter().map(|point| *point as u16).collect();
        let question = Question {
            cycle: cycle_value(&[numbers.len() as u16 - 1], &numbers),
            speed_tolerance: s.into(),
            time_tolerance: w.into(),
            allowance: allowance.into(),
            position: position as u32,
            speed: speed.into(),
        };
        let gate = cycle.gate_table(s.into(), w.into())[position];
        let below = (speed as i16) < gate.least;
        let above = (speed as i16) > gate.most;
        let expected = if below {
            1
        } else if above {
            2
        } else {
            0
        };
        assert_eq!(question.answer(), expected);
    }
}
