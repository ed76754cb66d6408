//! Field 8 in a record, and the closing of the shortened method (document 02,
//! L5), on document 01's example: an interval has 1,440,000 and a cycle of 40
//! has 57,600,000, the distance 8,000 and so q = 720,000.

mod common;

use common::*;
use second::sheet::sheet;
use second::write::*;

/// The example in the shortened method: M of 1, set speed 100, so many equal
/// samples, which E's last one closes.
fn shortened(samples: usize) -> Vec<Vec<u8>> {
    let mut fields = example_of(samples);
    fields.insert(4, stretches(1, 100));
    fields
}

/// 161 intervals: E = 231,840,000, and 5E / (72 × 720,000) is 22.3.
const SHORTENED: &str = "run LTESTVEH000000001
end none 162
cycles 4
outside 0
passed 0
drawn 231840000
weighted 720000
range 22
ac 681818
";

/// The sheet of fields 1 to 4 and these.
fn after_the_start(fields: &[Vec<u8>]) -> String {
    sheet_of(&[&start()[..], fields].concat())
}

#[test]
fn the_example_in_the_shortened_method() {
    assert_eq!(sheet_of(&shortened(162)), SHORTENED);
}

/// 10 with none to three cycles finished; the regular method takes three.
#[test]
fn ten_with_fewer_than_four_cycles() {
    for (samples, finished) in [(40, 0), (41, 1), (81, 2), (82, 2), (122, 3), (161, 3)] {
        let drawn = 1_440_000 * (samples - 1);
        let expected = format!(
            "run LTESTVEH000000001\nend none {samples}\ncycles {finished}\noutside 0\npassed 0\n\
             drawn {drawn}\nrefused 10\n"
        );
        assert_eq!(sheet_of(&shortened(samples)), expected);
    }
    let started = after_the_start(&[stretches(1, 100)]);
    assert!(started.ends_with("end none 0\ncycles 0\noutside 0\npassed 0\ndrawn 0\nrefused 10\n"));
    assert_eq!(line(&sheet_of(&example_of(122)), "range"), "range 16");
}

/// The 80th too slow is sample 161 + 80; 241 intervals are closed.
#[test]
fn a_stop_in_e() {
    let too_slow = Raw { speed: 69, ..GOOD };
    let told = |count: usize| {
        let blocks = [block(OWN, 0, &[GOOD; 162]), block(OWN, 162, &vec![too_slow; count])];
        after_the_start(&[&[stretches(1, 100)], &blocks[..]].concat())
    };
    assert!(told(79).contains("end none 241\ncycles 4\noutside 0\npassed 0\ndrawn 345600000\n"));
    let stopped = "end stop 241\ncycles 4\noutside 0\npassed 0\ndrawn 347040000\n";
    assert!(told(80).contains(stopped) && told(100).contains(stopped));
    assert!(told(80).ends_with("weighted 720000\nrange 33\nac -\n"));
}

/// A stop by the first sample of cycle 3 closes M; by that of cycle 4, cycle 3.
#[test]
fn stops_behind_m() {
    let told = |slow: usize| {
        let samples = [&vec![GOOD; slow][..], &[Raw { speed: 131, ..GOOD }; 9]].concat();
        let mut fields = shortened(0);
        fields[3] = tolerances([30, 20, 0]);
        fields[5] = block(OWN, 0, &samples);
        sheet_of(&fields)
    };
    assert!(told(80).contains("end stop 81\ncycles 2\noutside 1\npassed 0\ndrawn 116640000\n"));
    assert!(told(81).contains("end stop 81\ncycles 2\noutside 1\npassed 0\ndrawn 116640000\n"));
    assert!(told(121).contains("end stop 121\ncycles 3\noutside 1\npassed 0\ndrawn 174240000\n"));
    assert!(told(161).contains("end none 170\ncycles 4\noutside 0\npassed 0\ndrawn 243360000\n"));
}

/// Energies of a sample 300,000 in cycle 1, then 200,000, M 500,000, 400,000,
/// 100,000, E 600,000; all speeds 100. So e_c = 23,900,000, 16,300,000,
/// 31,700,000, 8,500,000 and q_c = e_c / 80; M has 9,900,000, E 12,000,000.
/// With twice 1,000,000 before the test the closing's E is 104,300,000.
/// W = [2 (q_1 e_1 + q_2 e_2) + 64,100,000 × 502,500] / 208,600,000 = 254,711.17.
#[test]
fn weights_by_formula_13() {
    let row = |times, voltage| vec![Raw { speed: 100, voltage, current: -100 }; times];
    let parts = [(40, 3000), (40, 2000), (10, 5000), (40, 4000), (40, 1000), (11, 6000)];
    let samples: Vec<Raw> = parts.into_iter().flat_map(|(times, v)| row(times, v)).collect();
    let sheet = after_the_start(&[
        stretches(10, 100),
        transfer(0, 1_000_000),
        block(OWN, 0, &samples),
        transfer(1, 2_000_000),
        recharge(10),
    ]);
    assert!(sheet.contains("end none 181\ncycles 4\noutside 0\npassed 0\ndrawn 102300000\n"));
    assert!(sheet.ends_with("weighted 254711\nrange 28\nac 343951\n"));
}

/// E gives back 720,000 - 2 × 58,680,000 - units, M and cycles 3 and 4 have
/// 116,640,000: E = e_1 + e_2 is good, one unit less is 11.
#[test]
fn eleven_at_closing() {
    let back = |units: u16| {
        let give = |voltage, current| Raw { speed: 100, voltage, current };
        let samples = [&[GOOD; 162][..], &[give(5868, 10000), give(units, 1)]].concat();
        after_the_start(&[stretches(1, 100), block(OWN, 0, &samples)])
    };
    assert!(back(0).ends_with("drawn 115200000\nweighted 720000\nrange 11\nac -\n"));
    assert!(back(1).ends_with("drawn 115199999\nrefused 11\n"));
}

/// All points 0: with speed 0 the distance of cycle 1 is 0. With speed 1 and a
/// product of 1 all q are 100 and E is 322 and twice the transfer; range 1 needs
/// E = 1440.
#[test]
fn twelve_and_thirteen_at_closing() {
    let told = |speed: u16, before: i64| {
        let mut fields = start();
        fields[2] = cycle(&[2], &[0, 0, 0]);
        fields.extend([stretches(1, 1500), transfer(0, before)]);
        fields.push(block(OWN, 0, &[Raw { speed, voltage: 1, current: -1 }; 162]));
        sheet_of(&fields)
    };
    assert!(told(0, 559).ends_with("drawn 322\nrefused 12\n"));
    assert!(told(1, 558).ends_with("drawn 322\nrefused 13\n"));
    assert!(told(1, 559).ends_with("drawn 322\nweighted 100\nrange 1\nac -\n"));
}

#[test]
fn recharge_refusals() {
    let mut fields = shortened(162);
    fields.insert(6, transfer(1, -115_920_000));
    assert!(sheet_of(&fields).ends_with("range 22\nrefused 14\n"));
    fields[6] = transfer(1, -115_919_999);
    assert!(sheet_of(&fields).ends_with("range 22\nrefused 12\n"));
    fields.pop();
    assert!(sheet_of(&fields).ends_with("range 22\nac -\n"));
}

#[test]
fn nineteen_outside_the_limits() {
    for bad in [(0, 100), (4_000_001, 100), (u32::MAX, 100), (1, 0), (1, 1501), (1, 65535), (0, 0)]
    {
        assert_eq!(after_the_start(&[stretches(bad.0, bad.1)]), refused(19, 5));
    }
    for good in [(1, 1), (1, 1500), (4_000_000, 1), (4_000_000, 1500)] {
        let sheet = after_the_start(&[stretches(good.0, good.1)]);
        assert_eq!(line(&sheet, "end"), "end none 0");
    }
}

#[test]
fn eight_for_another_length_from_the_third_byte() {
    for length in [0, 1, 4, 5, 7, 8, 256, 65535u16] {
        let [high, low] = length.to_be_bytes();
        let begun = [&start().concat()[..], &[8, high, low]].concat();
        assert_eq!(sheet(&begun), refused(8, 5));
        assert_eq!(sheet(&[8, high, low]), refused(8, 1));
    }
    assert_eq!(after_the_start(&[field(8, &[0, 0, 0, 1, 0])]), refused(8, 5));
    assert_eq!(after_the_start(&[field(8, &[0, 0, 0, 1, 0, 1, 0])]), refused(8, 5));
    assert_eq!(after_the_start(&[recharge(1), field(8, &[])]), refused(8, 6));
}

/// Out of its place it is 9, whatever its content.
#[test]
fn nine_out_of_its_place() {
    let (before, after, ac) = (transfer(0, 1), transfer(1, 1), recharge(1));
    let own = block(OWN, 0, &[GOOD]);
    for one in [stretches(1, 100), stretches(0, 0), stretches(4_000_001, 1501)] {
        for at in 0..4 {
            let mut fields = start()[..at].to_vec();
            fields.push(one.clone());
            assert_eq!(sheet_of(&fields), refused(9, at + 1));
        }
        for earlier in [&before, &own, &after, &ac, &stretches(1, 100), &stretches(2, 3)] {
            assert_eq!(after_the_start(&[earlier.clone(), one.clone()]), refused(9, 6));
            let foreign = block(OTHER, 0, &[BAD]);
            if *earlier != after && *earlier != ac {
                let fields = [earlier.clone(), foreign, one.clone()];
                assert_eq!(after_the_start(&fields), refused(9, 7));
            }
        }
    }
}

/// Blocks of another vehicle move nothing, before field 8 and behind it.
#[test]
fn foreign_blocks_around_it() {
    let foreign = block(OTHER, 9, &[BAD]);
    let mut fields = shortened(162);
    for at in [4, 4, 7] {
        fields.insert(at, foreign.clone());
    }
    fields.insert(8, transfer(0, 0));
    assert_eq!(fields[6][0], 8);
    assert_eq!(sheet_of(&fields), SHORTENED.replace("passed 0", "passed 3"));
    fields[6] = stretches(0, 100);
    assert_eq!(sheet_of(&fields), refused(19, 7));
}

/// After field 8 the order goes on as after field 4.
#[test]
fn the_order_behind_it() {
    let (before, after, ac) = (transfer(0, 1), transfer(1, 1), recharge(1));
    let (own, one) = (block(OWN, 0, &[GOOD]), stretches(1, 100));
    for next in [&before, &own, &after, &ac] {
        let sheet = after_the_start(&[one.clone(), next.clone()]);
        assert!(sheet.starts_with("run LTESTVEH000000001\nend none"));
    }
    for again in start() {
        assert_eq!(after_the_start(&[one.clone(), again]), refused(9, 6));
    }
    assert_eq!(after_the_start(&[one.clone(), before.clone(), before]), refused(9, 7));
    assert_eq!(after_the_start(&[one.clone(), ac, after.clone()]), refused(9, 7));
    assert_eq!(after_the_start(&[one.clone(), after, own]), refused(9, 7));
    assert_eq!(after_the_start(&[one, block(OWN, 1, &[GOOD])]), refused(6, 6));
}

/// Cut inside it, the record is 15; cut behind it, it is a started run.
#[test]
fn fifteen_inside_it() {
    let bytes = [start().concat(), stretches(0, 0)].concat();
    for missing in 1..9 {
        assert_eq!(sheet(&bytes[..bytes.len() - missing]), refused(15, 5));
    }
    assert_eq!(sheet(&bytes), refused(19, 5));
    assert_eq!(line(&sheet(&start().concat()), "end"), "end none 0");
}
