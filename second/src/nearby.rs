//! One small record with every kind of field, its prefixes, and what comes of
//! changing one of its bytes; and a record of the shortened method driven to
//! its stop in E, with a byte of its stretches changed.

use crate::write::{block, head, recharge, stretches, transfer, Raw, Vehicle};

const OWN: Vehicle = *b"LTESTVEH000000001";
const OTHER: Vehicle = *b"LTESTVEH000000002";
const GOOD: Raw = Raw { speed: 100, voltage: 6000, current: -120 };
const FAST: Raw = Raw { speed: 131, voltage: 6000, current: -125 };

/// The record that the others are made from.
pub fn whole() -> Vec<u8> {
    let mut fields = head(&OWN, &[2], &[100, 100, 100], [30, 20, 3]);
    fields.push(stretches(1, 100));
    fields.push(transfer(0, 720_000));
    fields.push(block(&OWN, 0, &[GOOD, FAST, GOOD]));
    fields.push(block(&OTHER, 7, &[Raw { speed: 9000, voltage: 0, current: 0 }]));
    fields.push(block(&OWN, 3, &[FAST, GOOD]));
    fields.push(transfer(1, -5));
    fields.push(recharge(15));
    fields.concat()
}

/// Four cycles and an M of one sample, all at speed 100; an E that slows down
/// from 150 to a stand.
pub fn driven() -> Vec<u8> {
    let slower = (0..76).map(|at| Raw { speed: 150 - 2 * at, ..GOOD });
    let standing = [Raw { speed: 0, ..GOOD }; 80];
    let samples: Vec<Raw> = [GOOD; 161].into_iter().chain(slower).chain(standing).collect();
    let mut fields = vec![before_the_stretches(), stretches(1, 100)];
    fields.push(block(&OWN, 0, &samples[..200]));
    fields.push(block(&OWN, 200, &samples[200..]));
    fields.push(recharge(15));
    fields.concat()
}

fn before_the_stretches() -> Vec<u8> {
    head(&OWN, &[2], &[100, 100, 100], [30, 20, 3]).concat()
}

/// Its first `seed` bytes.
pub fn prefix(seed: u64) -> Vec<u8> {
    let mut bytes = whole();
    bytes.truncate(seed as usize);
    bytes
}

/// With one byte raised by 1 to 255, around 256: byte `seed` div 255 by `seed`
/// mod 255, plus 1. Behind the last byte of the small record follow the six
/// bytes of the driven one's stretches.
pub fn change(seed: u64) -> Vec<u8> {
    let (small, at) = (whole(), (seed / 255) as usize);
    let (mut bytes, at) = if at < small.len() {
        (small, at)
    } else {
        (driven(), before_the_stretches().len() + 3 + (at - small.len()) % 6)
    };
    bytes[at] = bytes[at].wrapping_add((seed % 255 + 1) as u8);
    bytes
}
