//! Writing the fields of a record as bytes.

/// A vehicle number, 17 characters.
pub type Vehicle = [u8; 17];

/// A sample as it stands in the record, good or bad.
#[derive(Clone, Copy, Debug, PartialEq)]
pub struct Raw {
    pub speed: u16,
    pub voltage: u16,
    pub current: i16,
}

/// A field: tag, length, value.
pub fn field(tag: u8, value: &[u8]) -> Vec<u8> {
    let mut bytes = vec![tag];
    bytes.extend((value.len() as u16).to_be_bytes());
    bytes.extend(value);
    bytes
}

pub fn mark() -> Vec<u8> {
    field(1, b"RUN1")
}

pub fn vehicle(number: &Vehicle) -> Vec<u8> {
    field(2, number)
}

/// The value of field 3.
pub fn cycle_value(phase_ends: &[u16], points: &[u16]) -> Vec<u8> {
    let mut value = vec![phase_ends.len() as u8];
    for number in phase_ends.iter().chain(points) {
        value.extend(number.to_be_bytes());
    }
    value
}

pub fn cycle(phase_ends: &[u16], points: &[u16]) -> Vec<u8> {
    field(3, &cycle_value(phase_ends, points))
}

pub fn tolerances(numbers: [u16; 3]) -> Vec<u8> {
    let value: Vec<u8> = numbers.iter().flat_map(|number| number.to_be_bytes()).collect();
    field(4, &value)
}

/// Field 8: the length of M and the set speed of E.
pub fn stretches(length: u32, set_speed: u16) -> Vec<u8> {
    field(8, &[&length.to_be_bytes()[..], &set_speed.to_be_bytes()].concat())
}

pub fn block(number: &Vehicle, first: u32, samples: &[Raw]) -> Vec<u8> {
    let mut value = number.to_vec();
    value.extend(first.to_be_bytes());
    for sample in samples {
        value.extend(sample.speed.to_be_bytes());
        value.extend(sample.voltage.to_be_bytes());
        value.extend(sample.current.to_be_bytes());
    }
    field(5, &value)
}

pub fn transfer(kind: u8, energy: i64) -> Vec<u8> {
    let mut value = vec![kind];
    value.extend(energy.to_be_bytes());
    field(6, &value)
}

pub fn recharge(amount: u32) -> Vec<u8> {
    field(7, &amount.to_be_bytes())
}

/// The start of every good record: fields 1 to 4.
pub fn head(
    number: &Vehicle,
    phase_ends: &[u16],
    points: &[u16],
    numbers: [u16; 3],
) -> Vec<Vec<u8>> {
    vec![mark(), vehicle(number), cycle(phase_ends, points), tolerances(numbers)]
}
