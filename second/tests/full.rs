//! Refusal 7, where 4,000,000 samples are offered or blocks passed over, and
//! its neighbours in the order; and the shortened method, which has no limit.

mod common;

use common::*;
use second::write::*;

const MOST: usize = 4_000_000;

/// Fields 1 to 4 and own blocks of 200 up to `offered`, as bytes.
fn offered(offered: usize) -> Vec<u8> {
    started_and_offered(start().concat(), offered)
}

fn started_and_offered(mut bytes: Vec<u8>, offered: usize) -> Vec<u8> {
    for first in (0..offered).step_by(200) {
        bytes.extend(block(OWN, first as u32, &[GOOD; 200]));
    }
    bytes
}

/// The sheet of these bytes and one more field.
fn and(bytes: &[u8], field: &[u8]) -> String {
    second::sheet::sheet(&[bytes, field].concat())
}

#[test]
fn seven_for_samples_and_its_neighbours() {
    let nearly = offered(MOST - 200);
    let field = 5 + (MOST - 200) / 200;
    let last = (MOST - 200) as u32;
    assert_eq!(line(&and(&nearly, &block(OWN, last, &[GOOD; 200])), "end"), "end limit 2560");
    let full = [&nearly[..], &block(OWN, last, &[GOOD; 199])].concat();
    let next = last + 199;
    assert_eq!(and(&full, &block(OWN, next, &[GOOD; 2])), refused(7, field + 1));
    assert_eq!(and(&full, &block(OWN, next, &[BAD; 2])), refused(7, field + 1));
    assert_eq!(and(&full, &block(OWN, next + 1, &[GOOD; 2])), refused(6, field + 1));
    assert_eq!(and(&full, &block(FORBIDDEN, next, &[GOOD; 2])), refused(4, field + 1));
    assert_eq!(and(&full, &block(OWN, next, &[BAD])), refused(5, field + 1));
    assert_eq!(line(&and(&full, &block(OTHER, 0, &[BAD; 2])), "passed"), "passed 1");
}

#[test]
fn seven_for_foreign_blocks_and_its_neighbours() {
    let mut bytes = start().concat();
    for _ in 0..MOST {
        bytes.extend(block(OTHER, 0, &[BAD]));
    }
    let field = 5 + MOST;
    assert_eq!(line(&second::sheet::sheet(&bytes), "passed"), "passed 4000000");
    assert_eq!(and(&bytes, &block(OTHER, 0, &[BAD])), refused(7, field));
    assert_eq!(and(&bytes, &block(FORBIDDEN, 0, &[BAD])), refused(4, field));
    let own = and(&bytes, &block(OWN, 0, &[GOOD; 121]));
    assert_eq!(line(&own, "passed"), "passed 4000000");
    assert_eq!(line(&own, "range"), "range 16");
    bytes.extend(transfer(1, 0));
    assert_eq!(and(&bytes, &block(OTHER, 0, &[BAD])), refused(9, field + 1));
}

/// All of M: 3,999,999 intervals of 1,440,000.
#[test]
fn the_longest_m_and_seven_behind_it() {
    let started = [start().concat(), stretches(4_000_000, 1500)].concat();
    let bytes = started_and_offered(started, MOST);
    let sheet = second::sheet::sheet(&bytes);
    assert!(sheet.contains("end none 4000000\ncycles 2\noutside 0\npassed 0\n"));
    assert!(sheet.ends_with("drawn 5759998560000\nrefused 10\n"));
    assert_eq!(and(&bytes, &block(OWN, MOST as u32, &[GOOD])), refused(7, 6 + MOST / 200));
}

/// 160 samples in the cycles draw 600,000 and 780,000, all others 150,000,000;
/// every sample adds twice, but the first and the last once.
#[test]
fn the_greatest_energy_of_m_and_e() {
    let sheet = second::sheet::sheet(&second::make::make("full", 5, &[]).unwrap());
    let inside = 80 * 600_000 + 80 * 780_000i64;
    let drawn = 2 * (inside + 3_999_840 * 150_000_000) - 600_000 - 150_000_000;
    assert!(sheet.contains("end none 4000000\ncycles 4\noutside 0\npassed 1\n"));
    assert_eq!(line(&sheet, "drawn"), format!("drawn {drawn}"));
}
