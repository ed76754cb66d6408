//! Document 01's example record, and small helps for the tests.
#![allow(dead_code)]

use second::sheet::sheet;
use second::trace::trace;
use second::write::{block, cycle, mark, recharge, tolerances, vehicle, Raw, Vehicle};

pub const OWN: &Vehicle = b"LTESTVEH000000001";
pub const OTHER: &Vehicle = b"LTESTVEH000000002";
pub const FORBIDDEN: &Vehicle = b"LTESTVEH00000000Q";

/// The example's sample, and one whose speed is outside its limits.
pub const GOOD: Raw = Raw { speed: 100, voltage: 6000, current: -120 };
pub const BAD: Raw = Raw { speed: 1501, voltage: 6000, current: -120 };

/// What is printed for the example with one more sample, which closes its
/// third cycle (document 02, L2).
pub const EXAMPLE: &str = "run LTESTVEH000000001
end none 121
cycles 3
outside 0
passed 0
drawn 172800000
weighted 720000
range 16
ac 937500
";

/// What is printed for the example of document 01: the third cycle is not closed.
pub const EXAMPLE_OF_120: &str = "run LTESTVEH000000001
end none 120
cycles 2
outside 0
passed 0
drawn 171360000
refused 10
";

/// The fields of the example with one more sample: 1, 2, 3, 4, 5, 7.
pub fn example() -> Vec<Vec<u8>> {
    example_of(121)
}

/// The fields of the example with this many equal samples in its block.
pub fn example_of(samples: usize) -> Vec<Vec<u8>> {
    let mut fields = start();
    fields.push(block(OWN, 0, &vec![GOOD; samples]));
    fields.push(recharge(15));
    fields
}

/// Fields 1 to 4 of the example.
pub fn start() -> Vec<Vec<u8>> {
    vec![mark(), vehicle(OWN), cycle(&[2], &[100, 100, 100]), tolerances([30, 20, 300])]
}

/// The sheet of these fields.
pub fn sheet_of(fields: &[Vec<u8>]) -> String {
    sheet(&fields.concat())
}

/// The trace of these fields.
pub fn trace_of(fields: &[Vec<u8>]) -> String {
    trace(&fields.concat())
}

/// Fields 1 to 4 of the example with other tolerances, one own block, and no more.
pub fn with_samples(three: [u16; 3], samples: &[Raw]) -> Vec<Vec<u8>> {
    let mut fields = start();
    fields[3] = tolerances(three);
    fields.push(block(OWN, 0, samples));
    fields
}

/// The sheet of the example with one field put in another's place.
pub fn with(at: usize, field: Vec<u8>) -> String {
    let mut fields = example();
    fields[at] = field;
    sheet_of(&fields)
}

/// The sheet of the example with one field put in before the one at `at`.
pub fn with_also(at: usize, field: Vec<u8>) -> String {
    let mut fields = example();
    fields.insert(at, field);
    sheet_of(&fields)
}

/// The line of a refused field.
pub fn refused(number: u8, field: usize) -> String {
    format!("refused {number} field {field}\n")
}

/// The lines from the first one that begins with `first` to the next one that
/// begins with `last`, each with its line end.
pub fn from_to(text: &str, first: &str, last: &str) -> String {
    let (mut found, rest) = (String::new(), from(text, first));
    for line in rest.split_inclusive('\n') {
        found.push_str(line);
        if line.starts_with(last) {
            return found;
        }
    }
    panic!("no lines from {first} to {last}: {text}")
}

/// The lines from the first one that begins with `first` on.
pub fn from(text: &str, first: &str) -> String {
    text.split_inclusive('\n').skip_while(|line| !line.starts_with(first)).collect()
}

/// The line of the sheet that starts with this word.
pub fn line(sheet: &str, word: &str) -> String {
    let wanted = |line: &&str| line.split(' ').next() == Some(word);
    sheet.lines().find(wanted).unwrap_or("").to_string()
}
