//! Planting faults into the fields of a good record, each meant for one
//! refusal number.

// All spoilers have one form, so that `on_field` can take any of them.
#![allow(clippy::ptr_arg)]

use crate::chance::Chance;
use crate::draft::foreign_block;
use crate::write::{cycle_value, field, recharge, stretches, transfer, Vehicle};

/// The refusal numbers that a fault in a small record's fields can bring.
const NUMBERS: [u8; 10] = [2, 3, 4, 5, 6, 8, 9, 14, 19, 15];

/// Plants one fault, or two or three. They are planted in the order of the
/// numbers above, so that fields are whole until the last one cuts them.
pub fn plant_some(chance: &mut Chance, fields: &mut Vec<Vec<u8>>, own: &Vehicle) {
    if chance.one_in(5) {
        return plant_on_stretches(chance, fields);
    }
    let count = chance.pick(&[1, 1, 1, 2, 3]);
    for at in chance.some_of(count, NUMBERS.len()) {
        plant(chance, fields, own, NUMBERS[at]);
    }
}

/// Plants one fault of field 8: a wrong length, bad content, a wrong place.
fn plant_on_stretches(chance: &mut Chance, fields: &mut Vec<Vec<u8>>) {
    match chance.below(14) {
        0..=2 => misshape_stretches(chance, fields),
        3..=7 => insert_in_time(fields, vec![bad_stretches(chance)]),
        _ => misplace_stretches(chance, fields),
    }
}

/// Plants one fault that is meant for the number.
pub fn plant(chance: &mut Chance, fields: &mut Vec<Vec<u8>>, own: &Vehicle, number: u8) {
    match number {
        2 => on_field(chance, fields, &[3], spoil_cycle),
        3 => on_field(chance, fields, &[4], spoil_tolerances),
        4 => on_field(chance, fields, &[2, 5], spoil_vehicle),
        5 => on_field(chance, fields, &[5], spoil_sample),
        6 => on_field(chance, fields, &[5], spoil_first_number),
        8 => spoil_form(chance, fields),
        9 => spoil_order(chance, fields, own),
        14 => spoil_amount(chance, fields),
        19 => insert_in_time(fields, vec![bad_stretches(chance)]),
        _ => cut_short(chance, fields),
    }
}

/// Several faults in one and the same field, so that their order matters.
pub fn crowd(chance: &mut Chance, fields: &mut Vec<Vec<u8>>) {
    let at = chance.below(fields.len());
    let mut one = fields[at].clone();
    for _ in 0..2 + chance.below(2) {
        spoil_content(chance, &mut one);
    }
    if chance.one_in(3) {
        fields.insert(chance.below(fields.len() + 1), one);
    } else {
        fields[at] = one;
    }
}

/// Some fault that a field of this tag can have.
fn spoil_content(chance: &mut Chance, one: &mut Vec<u8>) {
    match (one[0], chance.below(4)) {
        (1, _) => one[3 + chance.below(4)] ^= 1,
        (2, _) | (5, 0) => spoil_vehicle(chance, one),
        (3, _) => spoil_cycle(chance, one),
        (4, _) => spoil_tolerances(chance, one),
        (5, 1) => spoil_first_number(chance, one),
        (5, _) => spoil_sample(chance, one),
        (6, 0) => one[3] = chance.pick(&[2, 255]),
        (6, _) => *one = transfer(one[3], bad_transfer(chance)),
        (8, 0) => spoil_length(chance, one),
        (8, _) => spoil_stretches(chance, one),
        _ => *one = recharge(bad_recharge(chance)),
    }
}

/// Does something to one field that has one of these tags, if there is one.
fn on_field(
    chance: &mut Chance,
    fields: &mut [Vec<u8>],
    tags: &[u8],
    spoil: fn(&mut Chance, &mut Vec<u8>),
) {
    let places: Vec<usize> =
        (0..fields.len()).filter(|at| tags.contains(&fields[*at][0])).collect();
    if !places.is_empty() {
        let at = chance.pick(&places);
        spoil(chance, &mut fields[at]);
    }
}

/// Refusal 2: every rule of the cycle has its turn.
pub fn spoil_cycle(chance: &mut Chance, one: &mut Vec<u8>) {
    let mut value = one[3..].to_vec();
    let phases = usize::from(value[0]).min((value.len() - 1) / 2);
    let (last_end, last_point) = (2 * phases, value.len() - 2);
    match chance.below(9) {
        0 => value[0] = chance.pick(&[0, 5, 255, value[0] ^ 1, value[0] ^ 2]),
        1 => value[1..3].fill(0),
        2 => value[last_end] ^= 1,
        3 => value[last_point..].copy_from_slice(&1501u16.to_be_bytes()),
        4 => value.push(0),
        5 => value.extend([0, 100]),
        _ => value = bad_cycle(chance),
    }
    *one = field(3, &value);
}

/// Cycles that break one rule and keep the others as far as that goes.
fn bad_cycle(chance: &mut Chance) -> Vec<u8> {
    let level = [100; 2402];
    match chance.below(6) {
        0 => cycle_value(&[], &level[..4]),
        1 => cycle_value(&[1, 2, 3, 4, 5], &level[..6]),
        2 => cycle_value(&[1, 1, 2], &level[..3]),
        3 => cycle_value(&[2, 1, 3], &level[..4]),
        4 => cycle_value(&[1, 1], &level[..2]),
        _ => cycle_value(&[2401], &level),
    }
}

/// Refusal 3: one of the three just above its limit, or far above.
fn spoil_tolerances(chance: &mut Chance, one: &mut Vec<u8>) {
    let which = chance.below(3);
    let number: u16 = chance.pick(&[[101, 41, 1201][which], 65535, 0x8000]);
    one[3 + 2 * which..5 + 2 * which].copy_from_slice(&number.to_be_bytes());
}

/// Refusal 4: one forbidden character.
fn spoil_vehicle(chance: &mut Chance, one: &mut Vec<u8>) {
    one[3 + chance.below(17)] = chance.pick(b"IOQioqaz/:@[ \x00\xFF");
}

/// Refusal 5: one value just outside its limits, or far outside.
fn spoil_sample(chance: &mut Chance, one: &mut Vec<u8>) {
    let samples = (one.len() - 24) / 6;
    let start = 24 + 6 * chance.below(samples);
    let (channel, number) = chance.pick(&[
        (0, 1501),
        (0, 0xFFFF),
        (2, 15001),
        (2, 0x8000),
        (4, 10001),
        (4, 0x8000),
        (4, (-10001i16) as u16),
    ]);
    one[start + channel..start + channel + 2].copy_from_slice(&number.to_be_bytes());
}

/// Refusal 6: another first number.
fn spoil_first_number(chance: &mut Chance, one: &mut Vec<u8>) {
    let first = u32::from_be_bytes([one[20], one[21], one[22], one[23]]);
    let any = chance.bits() as u32;
    let other = [first.wrapping_add(1), first.wrapping_sub(1), first | 1 << 31, any];
    one[20..24].copy_from_slice(&chance.pick(&other).to_be_bytes());
}

/// Refusal 6: another first number in the last block, if that is an own one.
pub fn spoil_last_block(chance: &mut Chance, fields: &mut [Vec<u8>]) {
    if let Some(last) = fields.iter_mut().rfind(|field| field[0] == 5) {
        spoil_first_number(chance, last);
    }
}

/// Refusal 8: tag, length, mark or kind.
fn spoil_form(chance: &mut Chance, fields: &mut Vec<Vec<u8>>) {
    let at = chance.below(fields.len());
    match chance.below(8) {
        0 => fields[at][0] = chance.pick(&[0, 8, 9, 10, 128, 255]),
        1 => spoil_length(chance, &mut fields[at]),
        2 => on_field(chance, fields, &[1], |chance, one| one[3 + chance.below(4)] ^= 0x20),
        3 => fields.insert(at, transfer(chance.pick(&[2, 3, 255]), 0)),
        4 => on_field(chance, fields, &[3], |chance, one| {
            *one = field(3, &[1; 4812][..chance.pick(&[0, 8, 4812])]);
        }),
        5 => on_field(chance, fields, &[5], |_, one| *one = field(5, &one[3..24])),
        6 => misshape_stretches(chance, fields),
        _ => on_field(chance, fields, &[5], |_, one| {
            let value = [&one[3..24], &[0; 6 * 201]].concat();
            *one = field(5, &value);
        }),
    }
}

/// A length beside the right one, or far from it; the value stays.
fn spoil_length(chance: &mut Chance, one: &mut [u8]) {
    let length = u16::from_be_bytes([one[1], one[2]]);
    let other = chance.pick(&[length ^ 1, length ^ 2, 0, 65535, 8, 4812, length ^ 256]);
    one[1..3].copy_from_slice(&other.to_be_bytes());
}

/// Refusal 9: a field left out, doubled, moved, swapped, or a stray one.
fn spoil_order(chance: &mut Chance, fields: &mut Vec<Vec<u8>>, own: &Vehicle) {
    let (at, other) = (chance.below(fields.len()), chance.below(fields.len()));
    match chance.below(8) {
        0 => drop(fields.remove(at)),
        1 => fields.insert(other, fields[at].clone()),
        2 => fields.swap(at, other),
        3 => fields.insert(other, stray(chance, own)),
        4 | 5 => misplace_stretches(chance, fields),
        _ => add_at_the_end(chance, fields, own),
    }
}

/// Strays behind the record, or in front of its last field.
fn add_at_the_end(chance: &mut Chance, fields: &mut Vec<Vec<u8>>, own: &Vehicle) {
    for _ in 0..1 + chance.below(2) {
        let at = fields.len() - chance.below(2);
        fields.insert(at, stray(chance, own));
    }
}

/// A good field that has its place in the order.
fn stray(chance: &mut Chance, own: &Vehicle) -> Vec<u8> {
    match chance.below(6) {
        0 => foreign_block(chance, own),
        1 => transfer(0, 5),
        2 => recharge(7),
        3 => stretches(1, 1),
        _ => transfer(1, 5),
    }
}

/// Refusal 9: a field 8, good or bad, in every place that is not its own.
fn misplace_stretches(chance: &mut Chance, fields: &mut Vec<Vec<u8>>) {
    let one = if chance.one_in(3) { stretches(1, 1) } else { bad_stretches(chance) };
    match chance.below(6) {
        0 => fields.insert(chance.below(4).min(fields.len()), one),
        1 => insert_in_time(fields, vec![stretches(1, 1), one]),
        2 => insert_in_time(fields, vec![transfer(0, 5), one]),
        3 => put_behind_the_blocks(fields, vec![transfer(1, 5), one]),
        4 => put_behind_the_blocks(fields, vec![recharge(7), one]),
        _ => put_behind_the_blocks(fields, vec![one]),
    }
}

/// Refusal 14: an amount outside its limits, in a field 6 or 7 at a good place.
fn spoil_amount(chance: &mut Chance, fields: &mut Vec<Vec<u8>>) {
    match chance.below(3) {
        0 if fields.len() > 4 => fields.insert(4, transfer(0, bad_transfer(chance))),
        1 => put_behind_the_blocks(fields, vec![transfer(1, bad_transfer(chance))]),
        _ => put_behind_the_blocks(fields, vec![recharge(bad_recharge(chance))]),
    }
}

/// Puts fields behind the last block, in the place of the fields 6 and 7 there.
fn put_behind_the_blocks(fields: &mut Vec<Vec<u8>>, some: Vec<Vec<u8>>) {
    while fields.last().is_some_and(|last| matches!(last[0], 6 | 7)) {
        fields.pop();
    }
    fields.extend(some);
}

fn bad_transfer(chance: &mut Chance) -> i64 {
    let first = 10_000_000_000_001;
    chance.pick(&[first, -first, i64::MAX, i64::MIN, 1 << 62])
}

fn bad_recharge(chance: &mut Chance) -> u32 {
    chance.pick(&[0, 2_000_001, u32::MAX, 1 << 31])
}

/// Refusal 8: a field 8 of no byte, of one too few, of one too many.
fn misshape_stretches(chance: &mut Chance, fields: &mut Vec<Vec<u8>>) {
    let length = chance.pick(&[0, 5, 7]);
    insert_in_time(fields, vec![field(8, &[0, 0, 0, 1, 0, 1, 0][..length])]);
}

/// Puts fields right behind field 4, in the place of the field 8 that may be there.
fn insert_in_time(fields: &mut Vec<Vec<u8>>, some: Vec<Vec<u8>>) {
    fields.retain(|field| field[0] != 8);
    let place = fields.iter().position(|field| field[0] == 4).map_or(0, |at| at + 1);
    fields.splice(place..place, some);
}

/// Refusal 19: one of the two numbers just outside its limits, or far outside.
fn bad_stretches(chance: &mut Chance) -> Vec<u8> {
    let mut one = stretches(4_000_000, 1500);
    spoil_stretches(chance, &mut one);
    one
}

fn spoil_stretches(chance: &mut Chance, one: &mut Vec<u8>) {
    let length: u32 = chance.pick(&[0, 4_000_001, u32::MAX, 1 << 31]);
    let set_speed: u16 = chance.pick(&[0, 1501, 65535, 0x8000]);
    if chance.one_in(2) {
        one[3..7].copy_from_slice(&length.to_be_bytes());
    } else {
        one[7..9].copy_from_slice(&set_speed.to_be_bytes());
    }
}

/// Refusal 15: the input ends inside a field, or before field 4.
fn cut_short(chance: &mut Chance, fields: &mut Vec<Vec<u8>>) {
    if chance.one_in(2) {
        fields.truncate(chance.below(4));
        return;
    }
    let any = chance.below(fields.len());
    let stretches = fields.iter().position(|field| field[0] == 8).filter(|_| chance.one_in(2));
    fields.truncate(1 + stretches.unwrap_or(any));
    let last = fields.last_mut().expect("at least one field is left");
    last.truncate(1 + chance.below(last.len() - 1));
}
