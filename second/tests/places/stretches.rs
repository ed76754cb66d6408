//! Field 8 in and out of its place, with good and bad content, whole and cut.

use super::Place;
use second::field::{cut, number, Cut, Field};
use second::record::{Record, Refused};

/// What the record shows of field 8.
pub fn places(bytes: &[u8], read: &Result<Record, Refused>) -> Vec<Place> {
    let (mut left, mut fields) = (bytes, Vec::new());
    while let Cut::Whole(field, rest) = cut(left) {
        left = rest;
        fields.push(field);
    }
    let mut all = unfinished_places(left, read, fields.len() + 1);
    for (at, field) in fields.iter().enumerate().filter(|(_, field)| field.tag == 8) {
        let refusal = match read {
            Err(refused) if refused.field == at + 1 => refused.number,
            Err(refused) if refused.field < at + 1 => break,
            _ => 0,
        };
        all.extend(content_places(field, refusal));
        all.extend(order_places(&fields, at, refusal));
    }
    all
}

/// Where the record breaks off or is refused for a tag or a length.
fn unfinished_places(left: &[u8], read: &Result<Record, Refused>, field: usize) -> Vec<Place> {
    let begun =
        |head: &[u8], number| left.starts_with(head) && *read == Err(Refused { number, field });
    vec![
        (begun(&[8, 0, 0], 8), "length 0"),
        (begun(&[8, 0, 5], 8), "length 5"),
        (begun(&[8, 0, 7], 8), "length 7"),
        (begun(&[8], 15), "not finished"),
    ]
}

fn content_places(field: &Field, refusal: u8) -> Vec<Place> {
    let (m, u) = (number(&field.value[..4]), number(&field.value[4..]));
    let (good, bad) = (refusal == 0, refusal == 19);
    vec![
        (good && m == 1, "the shortest M"),
        (good && m == 4_000_000, "the longest M"),
        (good && u == 1, "the least set speed"),
        (good && u == 1500, "the greatest set speed"),
        (bad && m == 0, "M is 0"),
        (bad && m == 4_000_001, "M above its limit"),
        (bad && u == 0, "set speed 0"),
        (bad && u == 1501, "set speed above its limit"),
        (refusal == 9 && !(1..=4_000_000).contains(&m), "bad M out of place"),
        (refusal == 9 && !(1..=1500).contains(&u), "bad set speed out of place"),
    ]
}

/// What stands before and behind it.
fn order_places(fields: &[Field], at: usize, refusal: u8) -> Vec<Place> {
    let own = |field: &Field| field.value[..17] == *fields[1].value;
    let kind = |field: &Field| match field.tag {
        5 if !own(field) => 'F',
        5 => 'O',
        6 if field.value[0] == 0 => 'B',
        6 => 'A',
        tag => char::from(b'0' + tag),
    };
    let before: String = fields[..at].iter().map(kind).collect();
    let moved = before.trim_end_matches('F').chars().last().unwrap_or('0');
    let behind = fields.get(at + 1).map(kind);
    let (good, late) = (refusal == 0, refusal == 9);
    vec![
        (good && before.ends_with('F'), "behind a block passed over"),
        (good && behind == Some('F'), "before a block passed over"),
        (good && behind == Some('B'), "before a 6 before"),
        (good && behind == Some('O'), "before an own block"),
        (good && behind == Some('A'), "before a 6 after"),
        (good && behind == Some('7'), "before a 7"),
        (late && moved < '4', "before field 4"),
        (late && moved == '8', "a second time"),
        (late && moved == 'B', "behind a 6 before"),
        (late && moved == 'O', "behind an own block"),
        (late && moved == 'A', "behind a 6 after"),
        (late && moved == '7', "behind a 7"),
    ]
}
