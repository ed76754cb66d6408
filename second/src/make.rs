//! Making a record of some kind from a seed.

use crate::full::full;
use crate::long::long;
use crate::million::{foreign, million};
use crate::nearby::{change, prefix};
use crate::record::MOST;
use crate::small::small;

/// The record of a kind and seed; `None` for an unknown kind. `prefix` and
/// `change` take as seed the number of bytes and of the change. Option words:
/// `million` takes the block size, the number of samples and the time tolerance,
/// `foreign` the number of foreign blocks.
pub fn make(kind: &str, seed: u64, options: &[usize]) -> Option<Vec<u8>> {
    let option = |at: usize, usual: usize| options.get(at).copied().unwrap_or(usual);
    match kind {
        "small" => Some(small(seed)),
        "long" => Some(long(seed)),
        "million" => {
            let time_tolerance = options.get(2).map(|time| (*time).min(40) as u16);
            Some(million(seed, option(0, 200).clamp(1, 200), option(1, MOST), time_tolerance))
        }
        "foreign" => Some(foreign(seed, option(0, MOST))),
        "full" => Some(full(seed)),
        "prefix" => Some(prefix(seed)),
        "change" => Some(change(seed)),
        _ => None,
    }
}
