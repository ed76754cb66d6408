//! The closing figures: values worked out by hand, each refusal by itself,
//! each neighbouring pair, and the promise about W.

mod common;

use common::*;
use second::chance::Chance;
use second::closing::{close, recharge, weighted, Figures};
use second::run::Finished;
use second::write::{block, transfer, Raw};

/// Finished cycles from pairs of energy and distance.
fn cycles(pairs: &[(i128, i128)]) -> Vec<Finished> {
    pairs.iter().map(|&(energy, distance)| Finished { energy, distance }).collect()
}

/// q = 1,428,571 and 1,818,181 and 2,307,692.
fn three() -> Vec<Finished> {
    cycles(&[(100_000_000, 7_000), (200_000_000, 11_000), (300_000_000, 13_000)])
}

#[test]
fn worked_by_hand() {
    let figures = close(&three(), 650_000_000).unwrap();
    assert_eq!(figures, Figures { weighted: 2_021_823, range: 22 });
    assert_eq!(recharge(&figures, 650_000_000, 50_000_000, Some(20)), Ok(Some(844_155)));
    assert_eq!(recharge(&figures, 650_000_000, 50_000_000, None), Ok(None));
}

#[test]
fn ten_by_itself_and_before_eleven() {
    assert_eq!(close(&three()[..2], 650_000_000), Err(10));
    assert_eq!(close(&cycles(&[(0, 0), (-1, 0)]), -5), Err(10));
    assert_eq!(close(&[], 0), Err(10));
}

#[test]
fn eleven_by_itself() {
    for thin in [0, -1] {
        let mut cycles = three();
        cycles[2].energy = thin;
        assert_eq!(close(&cycles, 650_000_000), Err(11));
    }
    assert_eq!(close(&three(), 299_999_999), Err(11));
    assert!(close(&three(), 300_000_000).is_ok());
}

#[test]
fn eleven_before_twelve() {
    assert_eq!(close(&cycles(&[(5, 0), (5, 5), (0, 5)]), 100), Err(11));
    assert_eq!(close(&cycles(&[(5, 0), (5, 5), (5, 5)]), 9), Err(11));
}

#[test]
fn twelve_by_itself() {
    let last = |energy, distance| {
        let mut cycles = three();
        cycles[2] = Finished { energy, distance };
        close(&cycles, 650_000_000)
    };
    assert_eq!(last(300_000_000, 0), Err(12));
    assert_eq!(last(1, 101), Err(12));
    assert!(last(1, 100).is_ok());
    assert_eq!(last(100_001, 1), Err(12));
    assert!(last(100_000, 1).is_ok());
    assert_eq!(last(20_000_002, 200), Err(12));
    assert!(last(20_000_001, 200).is_ok());
}

#[test]
fn thirteen_by_itself_and_after_twelve() {
    let short = cycles(&[(40, 40), (40, 40), (40, 40)]);
    assert_eq!(close(&short, 1439), Err(13));
    assert_eq!(close(&short, 1440), Ok(Figures { weighted: 100, range: 1 }));
    let short_and_thin = cycles(&[(40, 40), (40, 40), (1, 101)]);
    assert_eq!(close(&short_and_thin, 1439), Err(12));
}

#[test]
fn fourteen_of_the_sum_and_after_absent() {
    let figures = Figures { weighted: 100, range: 16 };
    assert_eq!(recharge(&figures, 500, -500, Some(1)), Err(14));
    assert_eq!(recharge(&figures, 500, -600, Some(2_000_000)), Err(14));
    assert_eq!(recharge(&figures, 500, -500, None), Ok(None));
}

#[test]
fn twelve_of_the_recharge_figure() {
    let figures = Figures { weighted: 100, range: 16 };
    assert_eq!(recharge(&figures, 500, 0, Some(160)), Ok(Some(10_000_000)));
    assert_eq!(recharge(&figures, 500, 0, Some(161)), Err(12));
    assert_eq!(recharge(&figures, 500, -499, Some(1)), Err(12));
    assert_eq!(recharge(&figures, 500, 31_249_500, Some(1)), Ok(Some(1)));
    assert_eq!(recharge(&figures, 500, 31_249_501, Some(1)), Ok(Some(0)));
}

/// The example with transfers: E + F < 1 is asked only after the closing and
/// only where field 7 is.
#[test]
fn recharge_refusals_on_the_sheet() {
    let mut fields = example();
    fields.insert(5, transfer(1, -86_400_000));
    assert!(sheet_of(&fields).ends_with("range 16\nrefused 14\n"));
    fields.pop();
    assert!(sheet_of(&fields).ends_with("range 16\nac -\n"));
    let mut short = example_of(120);
    short.insert(5, transfer(1, -10_000_000_000_000));
    assert!(sheet_of(&short).ends_with("drawn 171360000\nrefused 10\n"));
}

/// F is twice what field 6 says, so E + F is odd where E is. The open cycle
/// adds 720,000 and `units`: E = 173,520,000 + units, W = 720,000, range 16.
#[test]
fn sum_about_one() {
    let last = |units: u16, after: i64| {
        let mut samples = vec![GOOD; 121];
        samples.push(Raw { speed: 100, voltage: units, current: -1 });
        let mut fields = example();
        fields[4] = block(OWN, 0, &samples);
        fields.insert(5, transfer(1, after));
        let sheet = sheet_of(&fields);
        assert_eq!(line(&sheet, "range"), "range 16");
        sheet.lines().last().unwrap().to_string()
    };
    assert_eq!(last(0, -86_760_000), "refused 14");
    assert_eq!(last(1, -86_760_001), "refused 14");
    assert_eq!(last(1, -86_760_000), "refused 12");
    assert_eq!(last(0, -86_759_999), "refused 12");
    assert_eq!(last(0, 0), "ac 937500");
    assert_eq!(last(0, 86_760_000), "ac 468750");
    assert_eq!(last(0, 173_520_000), "ac 312500");
}

/// The transfer before the test is in E and not in `drawn`; the open cycle is
/// in both. E = 172,800,000 + 1,440,000 + 2 × 2,880,000, W = 720,000.
#[test]
fn energy_with_transfer_and_open_cycle() {
    let mut fields = example();
    fields[4] = block(OWN, 0, &[GOOD; 122]);
    fields.insert(4, transfer(0, 2_880_000));
    let sheet = sheet_of(&fields);
    assert_eq!(line(&sheet, "drawn"), "drawn 174240000");
    assert_eq!(line(&sheet, "range"), "range 17");
    assert_eq!(line(&sheet, "ac"), "ac 882352");
}

/// Energy given back in the open cycle, 720,000 - 2 × 29,160,000 - units:
/// E = e_1 + e_2 is good, one unit less is 11.
#[test]
fn open_cycle_gives_back() {
    let back = |units: u16| {
        let give = |voltage, current| Raw { speed: 100, voltage, current };
        let mut samples = vec![GOOD; 121];
        samples.extend([give(2916, 10000), give(units, 1)]);
        let mut fields = example();
        fields[4] = block(OWN, 0, &samples);
        sheet_of(&fields)
    };
    assert_eq!(line(&back(0), "weighted"), "weighted 720000");
    assert_eq!(line(&back(0), "range"), "range 11");
    assert!(back(1).ends_with("drawn 115199999\nrefused 11\n"));
}

/// A closing of small numbers, and W* as a fraction: the unrounded 100 e / d
/// are over the common product of the distances.
struct Exact {
    cycles: Vec<Finished>,
    energy: i128,
    above: i128,
    below: i128,
}

fn exact(chance: &mut Chance, most_energy: i64, most_distance: i64, most_rest: i64) -> Exact {
    let n = chance.between(3, 5) as usize;
    let e: Vec<i128> = (0..n).map(|_| chance.between(1, most_energy).into()).collect();
    let d: Vec<i128> = (0..n).map(|_| chance.between(1, most_distance).into()).collect();
    let energy = e[0] + e[1] + i128::from(chance.between(0, most_rest));
    let product: i128 = d.iter().product();
    let unrounded: Vec<i128> = (0..n).map(|c| 100 * e[c] * (product / d[c])).collect();
    let others = n as i128 - 2;
    let sum: i128 = unrounded[2..].iter().sum();
    let above = others * (unrounded[0] * e[0] + unrounded[1] * e[1]) + (energy - e[0] - e[1]) * sum;
    let pairs: Vec<(i128, i128)> = e.into_iter().zip(d).collect();
    Exact { cycles: cycles(&pairs), energy, above, below: energy * others * product }
}

/// W is never above the weighting of the unrounded 100 e / d and less than 2
/// below it.
#[test]
fn weighted_is_near_the_unrounded_weighting() {
    let chance = &mut Chance::new(1);
    for _ in 0..20_000 {
        let x = exact(chance, 5000, 90, 9000);
        let q: Vec<i128> = x.cycles.iter().map(|c| 100 * c.energy / c.distance).collect();
        let w = weighted(x.cycles[0].energy, x.cycles[1].energy, x.energy, &q);
        assert!(w * x.below <= x.above && x.above < (w + 2) * x.below);
    }
}

/// Document 02, L11: with R* = 5E / (72W*) the range R is not below the whole
/// metres of R*, R × W < R* × (W+2), R is at most k metres above them where
/// 2R <= k(W+2), and W lies between the least and the greatest q. Both sides
/// of each bound are reached, so none can be made tighter.
#[test]
fn range_is_near_the_exact_one() {
    let chance = &mut Chance::new(2);
    let mut reached = [0; 8];
    for turn in 0..400_000 {
        // in every second one the whole energy is that of the first two cycles
        let x = if turn % 2 == 0 {
            exact(chance, 12, 400, 4000)
        } else {
            exact(chance, 4000, 90_000, 0)
        };
        let Ok(Figures { weighted: w, range: r }) = close(&x.cycles, x.energy) else { continue };
        let (top, bottom) = (5 * x.energy * x.below, 72 * x.above);
        let whole = top / bottom;
        assert!(whole <= r);
        assert!(r * w * bottom < top * (w + 2));
        let most = (2 * r + w + 1) / (w + 2);
        assert!(r <= whole + most);
        let q = x.cycles.iter().map(|c| 100 * c.energy / c.distance);
        let (least, greatest) = (q.clone().min().unwrap(), q.max().unwrap());
        assert!(least <= w && w <= greatest);
        let sides = [
            r == whole && r * bottom < top,
            r == whole + 1 && 2 * r <= w + 2,
            r == whole && 2 * r <= w + 2,
            r == whole + 2 && 2 * r == w + 3,
            r * w * bottom >= top * (w + 1),
            r == whole + most && most > 2,
            w == least && least < greatest,
            w == greatest && least < greatest,
        ];
        for (count, side) in reached.iter_mut().zip(sides) {
            *count += i32::from(side);
        }
    }
    assert!(reached.iter().all(|&count| count > 0), "{reached:?}");
}
