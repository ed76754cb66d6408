//! Full records: 4,000,000 samples offered or blocks passed over, and what
//! may still follow then. Here refusal 7 occurs, and its neighbours 6 and 5.
//! One case is of the shortened method, which has no limit.

use crate::chance::Chance;
use crate::draft::{foreign_block, Draft};
use crate::million::{add_blocks, add_foreign, start};
use crate::record::MOST;
use crate::write::{block, stretches, transfer, Raw};

/// Two samples inside the band, the one that draws most, and one with a
/// forbidden speed.
const GOOD: Raw = Raw { speed: 300, voltage: 6000, current: -100 };
const FAST: Raw = Raw { speed: 310, voltage: 6000, current: -130 };
const MOST_DRAWN: Raw = Raw { speed: 1500, voltage: 15000, current: -10000 };
const BAD: Raw = Raw { speed: 1501, voltage: 6000, current: -100 };

/// The full record of a seed; twelve seeds in a row show all cases.
pub fn full(seed: u64) -> Vec<u8> {
    let chance = &mut Chance::new(seed);
    let draft = Draft::new(chance, vec![300, 300, 300], [30, 20, 300]);
    match seed % 12 {
        5 => full_of_stretches(chance, &draft),
        0..=7 => full_of_samples(chance, &draft, seed % 12),
        case => full_of_foreign(chance, &draft, case),
    }
}

/// The last own block ends at the limit, or goes beyond it, alone or with
/// other faults; then blocks that mind it or do not.
fn full_of_samples(chance: &mut Chance, draft: &Draft, case: u64) -> Vec<u8> {
    let room = 1 + chance.below(199);
    let offered = MOST - room;
    let mut bytes = start(draft);
    let samples: Vec<Raw> = (0..offered).map(|at| [GOOD, GOOD, FAST][at % 3]).collect();
    add_blocks(&mut bytes, draft, &samples, 0, 200);
    let own = |first: usize, samples: &[Raw]| block(&draft.vehicle, first as u32, samples);
    let too_many = vec![GOOD; room + 1];
    let fits = own(offered, &too_many[1..]);
    let mut forbidden = draft.vehicle;
    forbidden[16] = b'Q';
    match case {
        0 => bytes.extend(fits),
        1 => bytes.extend(own(offered, &too_many)),
        2 => bytes.extend(own(offered, &vec![BAD; room + 1])),
        3 => bytes.extend(own(offered + 1, &too_many)),
        4 => bytes.extend([fits, own(MOST, &[GOOD])].concat()),
        6 => bytes.extend(block(&forbidden, offered as u32, &too_many)),
        _ => bytes.extend([fits, transfer(1, 9), own(MOST, &[GOOD])].concat()),
    }
    bytes
}

/// The shortened method: four cycles, and M and E at the greatest energy there
/// is. The last own block ends at the limit, a foreign one follows.
fn full_of_stretches(chance: &mut Chance, draft: &Draft) -> Vec<u8> {
    let (positions, length) = (draft.positions(), MOST / 2 + chance.below(MOST / 4));
    let mut bytes = [start(draft), stretches(length as u32, 1500)].concat();
    let mut samples = vec![MOST_DRAWN; MOST];
    samples[..2 * positions].fill(GOOD);
    samples[2 * positions + length..4 * positions + length].fill(FAST);
    add_blocks(&mut bytes, draft, &samples, 0, 200);
    bytes.extend(foreign_block(chance, &draft.vehicle));
    bytes
}

/// 4,000,000 blocks passed over; then one more, an own one, or a faulty one.
fn full_of_foreign(chance: &mut Chance, draft: &Draft, case: u64) -> Vec<u8> {
    let mut bytes = start(draft);
    add_foreign(chance, &mut bytes, draft, MOST);
    let mut other = foreign_block(chance, &draft.vehicle);
    match case {
        8 => bytes.extend(other),
        9 => bytes.extend(block(&draft.vehicle, 0, &[GOOD; 150])),
        10 => bytes.extend([transfer(0, 9), transfer(1, 9), other].concat()),
        _ => {
            other[3] = b'I';
            bytes.extend(other);
        }
    }
    bytes
}
