//! Cutting the record into fields: a one-byte tag, a two-byte length, the value.

/// A whole field whose tag is known and whose length its tag allows.
#[derive(Clone, Copy, Debug, PartialEq)]
pub struct Field<'a> {
    pub tag: u8,
    pub value: &'a [u8],
}

/// What stands at the front of the remaining bytes.
#[derive(Clone, Copy, Debug, PartialEq)]
pub enum Cut<'a> {
    /// A whole field, and the bytes behind it.
    Whole(Field<'a>, &'a [u8]),
    /// An unknown tag or an impossible length: refusal 8.
    Impossible,
    /// A field begun and not finished, or no bytes at all.
    Incomplete,
}

/// Cuts one field off the front.
#[inline]
pub fn cut(bytes: &[u8]) -> Cut<'_> {
    match bytes {
        [tag, ..] if !(1..=8).contains(tag) => Cut::Impossible,
        [tag, high, low, rest @ ..] => {
            let length = usize::from(*high) * 256 + usize::from(*low);
            cut_value(*tag, length, rest)
        }
        _ => Cut::Incomplete,
    }
}

fn cut_value(tag: u8, length: usize, rest: &[u8]) -> Cut<'_> {
    if !length_allowed(tag, length) {
        Cut::Impossible
    } else if rest.len() < length {
        Cut::Incomplete
    } else {
        Cut::Whole(Field { tag, value: &rest[..length] }, &rest[length..])
    }
}

/// The lengths each tag allows.
pub fn length_allowed(tag: u8, length: usize) -> bool {
    match tag {
        1 => length == 4,
        2 => length == 17,
        3 => (9..=4811).contains(&length),
        4 => length == 6,
        5 => (1..=200).any(|samples| length == 17 + 4 + 6 * samples),
        6 => length == 9,
        7 => length == 4,
        8 => length == 6,
        _ => false,
    }
}

/// A big-endian number without sign.
pub fn number(bytes: &[u8]) -> i128 {
    bytes.iter().fold(0, |sum, byte| sum * 256 + i128::from(*byte))
}

/// A big-endian number of eight bytes in two's complement.
pub fn signed_number(bytes: &[u8]) -> i128 {
    let plain = number(bytes);
    if plain >= 1 << 63 {
        plain - (1 << 64)
    } else {
        plain
    }
}
