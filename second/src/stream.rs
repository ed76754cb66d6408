//! Many records in one stream, each behind its length (4 bytes, big-endian),
//! and the texts of such a stream, each with an empty line behind it.

use crate::compare::difference;
use crate::make::make;
use crate::what::What;

/// The records of a kind from the seeds `first_seed` on, `None` for an unknown kind.
pub fn stream(kind: &str, count: u64, first_seed: u64, options: &[usize]) -> Option<Vec<u8>> {
    let mut bytes = Vec::new();
    for seed in first_seed..first_seed + count {
        let record = make(kind, seed, options)?;
        bytes.extend((record.len() as u32).to_be_bytes());
        bytes.extend(record);
    }
    Some(bytes)
}

/// The texts of a stream; `None` where it ends inside a record.
pub fn texts(what: What, mut bytes: &[u8]) -> Option<String> {
    let mut text = String::new();
    while !bytes.is_empty() {
        let (length, rest) = bytes.split_first_chunk::<4>()?;
        let length = u32::from_be_bytes(*length) as usize;
        if rest.len() < length {
            return None;
        }
        let (record, rest) = rest.split_at(length);
        text.push_str(&with_end(what.of(record)));
        bytes = rest;
    }
    Some(text)
}

/// A text with the empty line that ends it in a stream.
fn with_end(text: String) -> String {
    text + "\n"
}

/// Whether the text has the texts of those records; else which seed differs first.
pub fn agree(
    what: What,
    text: &str,
    kind: &str,
    count: u64,
    first_seed: u64,
    options: &[usize],
) -> Option<Result<String, String>> {
    let mut rest = text;
    for seed in first_seed..first_seed + count {
        let ours = with_end(what.of(&make(kind, seed, options)?));
        let Some(after) = rest.strip_prefix(ours.as_str()) else {
            let theirs: String = rest.chars().take(ours.len() + 40).collect();
            let told = difference(what, &ours, &theirs);
            return Some(Err(format!("{kind} seed {seed} differs {told}\n")));
        };
        rest = after;
    }
    Some(if rest.is_empty() {
        Ok(format!("{count} records of {kind}: all same\n"))
    } else {
        Err(format!("{kind}: more was printed than the {} of {count} records\n", what.word()))
    })
}
