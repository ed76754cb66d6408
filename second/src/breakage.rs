//! Broken bytes: a whole record with some bytes changed, lost or added.

use crate::chance::Chance;

/// Breaks the bytes in one way.
pub fn break_bytes(chance: &mut Chance, record: &[u8]) -> Vec<u8> {
    let mut bytes = record.to_vec();
    let at = place(chance, bytes.len());
    match chance.below(7) {
        0 => bytes[at] = chance.bits() as u8,
        1 => bytes[at] ^= 1 << chance.below(8),
        2 => bytes.truncate(at),
        3 => insert_some(chance, &mut bytes, at),
        4 => remove_some(chance, &mut bytes, at),
        5 => append_some(chance, &mut bytes),
        _ => swap_with_next(&mut bytes, at),
    }
    bytes
}

/// Any place, but often one near the front, where the first fields stand.
fn place(chance: &mut Chance, length: usize) -> usize {
    if chance.one_in(2) {
        chance.below(length.min(90))
    } else {
        chance.below(length)
    }
}

fn insert_some(chance: &mut Chance, bytes: &mut Vec<u8>, at: usize) {
    for _ in 0..1 + chance.below(4) {
        bytes.insert(at, chance.bits() as u8);
    }
}

fn remove_some(chance: &mut Chance, bytes: &mut Vec<u8>, at: usize) {
    let end = (at + 1 + chance.below(6)).min(bytes.len());
    bytes.drain(at..end);
}

/// Bytes behind the record: often a known tag, which begins a field.
fn append_some(chance: &mut Chance, bytes: &mut Vec<u8>) {
    bytes.push(chance.between16(0, 9) as u8);
    for _ in 0..chance.below(5) {
        bytes.push(chance.pick(&[0, 4, 6, 9, 17, 27, 255]));
    }
}

fn swap_with_next(bytes: &mut [u8], at: usize) {
    if at + 1 < bytes.len() {
        bytes.swap(at, at + 1);
    }
}
