//! Rates, transfers, weights and refusals in the trace: texts worked out by
//! hand, on document 01's example with one more sample: three cycles of 40
//! intervals, each of which has 1,440,000 and 200.

mod common;

use common::*;
use second::write::*;

/// Points 0, so that speeds up to 30 are inside, and 121 equal samples; the
/// trace from the line of cycle 3 on.
fn level(one: Raw) -> String {
    let mut fields = with_samples([30, 20, 0], &[one; 121]);
    fields[2] = cycle(&[2], &[0, 0, 0]);
    from(&trace_of(&fields), "cycle 3 energy")
}

/// What stands behind the line of cycle 3 where the closing is refused and no
/// transfer was made.
fn refused_at_closing(drawn: i64, number: u8) -> String {
    format!(
        "cycles 3\noutside 0\ndrawn {drawn}\ntransfer before 0 after 0\nwhole {drawn}\n\
         refused {number}\n"
    )
}

/// A finished cycle without distance, without energy, or with energy given
/// back has no rate.
#[test]
fn a_finished_cycle_without_a_rate() {
    let standing = "cycle 3 energy 57600000 distance 0 outside 0 finished\n";
    let expected = standing.to_string() + &refused_at_closing(172_800_000, 12);
    assert_eq!(level(Raw { speed: 0, ..GOOD }), expected);
    let idle = "cycle 3 energy 0 distance 400 outside 0 finished\n";
    let expected = idle.to_string() + &refused_at_closing(0, 11);
    assert_eq!(level(Raw { speed: 5, voltage: 0, current: -120 }), expected);
    let back = "cycle 3 energy -57600000 distance 400 outside 0 finished\n";
    let expected = back.to_string() + &refused_at_closing(-172_800_000, 11);
    assert_eq!(level(Raw { speed: 5, voltage: 6000, current: 120 }), expected);
}

/// 100 × 57,600,000 / 400 is above 10,000,000: printed, and refused 12.
#[test]
fn a_rate_above_its_limit() {
    let above = "cycle 3 energy 57600000 distance 400 outside 0 finished rate 14400000\n";
    let expected = above.to_string() + &refused_at_closing(172_800_000, 12);
    assert_eq!(level(Raw { speed: 5, ..GOOD }), expected);
}

/// One sample of each cycle draws 1, so two intervals do: 100 × 2 / 8,000 is
/// below 1. With 100 × 80 / 2,400 the rate is 3, and there are figures.
#[test]
fn a_rate_of_0_and_a_small_one() {
    let mut samples = [Raw { current: 0, ..GOOD }; 121];
    for at in [20, 60, 100] {
        samples[at] = Raw { speed: 100, voltage: 1, current: -1 };
    }
    let trace = trace_of(&with_samples([30, 20, 0], &samples));
    let zero = "cycle 3 energy 2 distance 8000 outside 0 finished rate 0\n";
    let expected = zero.to_string() + &refused_at_closing(6, 12);
    assert!(trace.ends_with(&expected));
    // E = 240, W = 3 and 5 × 240 / 216 = 5.6
    let expected = "cycle 3 energy 80 distance 2400 outside 0 finished rate 3
cycles 3
outside 0
drawn 240
transfer before 0 after 0
whole 240
weight 1 80 240
weight 2 80 240
weight 3 80 240
weighted 3
range 5
recharge -
ac -
";
    assert_eq!(level(Raw { speed: 30, voltage: 1, current: -1 }), expected);
}

/// All q are 100, and range 1 needs E = 1,440: 240 and 2 × 599 are too little.
#[test]
fn thirteen_at_closing() {
    let told = |before| {
        let slow = Raw { speed: 1, voltage: 1, current: -1 };
        let mut fields = with_samples([30, 20, 0], &[slow; 121]);
        fields[2] = cycle(&[2], &[0, 0, 0]);
        fields.insert(4, transfer(0, before));
        from_to(&trace_of(&fields), "transfer", "re")
    };
    assert_eq!(told(599), "transfer before 1198 after 0\nwhole 1438\nrefused 13\n");
    let expected = "transfer before 1200 after 0
whole 1440
weight 1 80 1440
weight 2 80 1440
weight 3 1280 1440
weighted 100
range 1
recharge -
";
    assert_eq!(told(600), expected);
}

/// Five cycles, of which the first draws half: e_1 = 39 × 720,000 + 1,080,000 =
/// 29,160,000, the others 57,600,000, E = 259,560,000. Over 3E stand 3 e_1,
/// 3 e_2 and three times E - 86,760,000. The rates are 364,500 and 720,000, and
/// W = 720,000 - 355,500 × 87,480,000 / 778,680,000 = 680,061.5. 5E / 72W is 26.5.
#[test]
fn weights_of_five_cycles() {
    let half = Raw { current: -60, ..GOOD };
    let mut fields = start();
    fields.push(block(OWN, 0, &[half; 40]));
    fields.push(block(OWN, 40, &[GOOD; 161]));
    let expected = "cycles 5
outside 0
drawn 259560000
transfer before 0 after 0
whole 259560000
weight 1 87480000 778680000
weight 2 172800000 778680000
weight 3 172800000 778680000
weight 4 172800000 778680000
weight 5 172800000 778680000
weighted 680061
range 26
recharge -
ac -
";
    let trace = trace_of(&fields);
    assert!(trace.ends_with(expected), "{trace}");
    assert!(trace.contains("cycle 1 energy 29160000 distance 8000 outside 0 finished rate 364500"));
}

/// Field 6 is told twice as great. 2 × 43,200,000 before: E = 259,200,000, and
/// E less 115,200,000 is 144,000,000; 5E / 51,840,000 = 25, 15,000,000 / 25 =
/// 600,000.
#[test]
fn a_transfer_before() {
    let mut fields = example();
    fields.insert(4, transfer(0, 43_200_000));
    let expected = "drawn 172800000
transfer before 86400000 after 0
whole 259200000
weight 1 57600000 259200000
weight 2 57600000 259200000
weight 3 144000000 259200000
weighted 720000
range 25
recharge 15
ac 600000
";
    assert!(trace_of(&fields).ends_with(expected));
    assert_eq!(line(&trace_of(&fields), "fields"), "fields 7 blocks 1 passed 0");
    fields[4] = transfer(0, -10_000_000_000_000);
    let expected = "transfer before -20000000000000 after 0\nwhole -19999827200000\nrefused 11\n";
    assert!(trace_of(&fields).ends_with(expected));
}

/// The closing of the example.
const CLOSING: &str = "weight 1 57600000 172800000
weight 2 57600000 172800000
weight 3 57600000 172800000
weighted 720000
range 16
";

/// The transfer after is not in `whole`. E + F = 172,800,000 - 2 × 86,400,000 =
/// 0 is 14 in place of `ac` where field 7 asks for the figure; one unit of
/// field 6 more and the figure is above 10,000,000, which is 12.
#[test]
fn recharge_refusals_and_absent() {
    let told = |after, last: Option<Vec<u8>>| {
        let mut fields = example();
        fields[5] = transfer(1, after);
        fields.extend(last);
        from(&trace_of(&fields), "transfer")
    };
    let with = |after, tail: &str| {
        format!("transfer before 0 after {after}\nwhole 172800000\n{CLOSING}{tail}")
    };
    let fourteen = with(-172_800_000, "recharge 15\nrefused 14\n");
    assert_eq!(told(-86_400_000, Some(recharge(15))), fourteen);
    let twelve = with(-172_799_998, "recharge 15\nrefused 12\n");
    assert_eq!(told(-86_399_999, Some(recharge(15))), twelve);
    assert_eq!(told(-86_400_000, None), with(-172_800_000, "recharge -\nac -\n"));
    // 2,000,000 × 1,000,000 / 16
    let much = with(0, "recharge 2000000\nrefused 12\n");
    assert_eq!(told(0, Some(recharge(2_000_000))), much);
}
