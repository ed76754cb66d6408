//! What the small records reach of the trace and the field list: every form of
//! a line, and the lines that a form alone does not tell apart.

use second::make::make;
use second::what::What;
use std::collections::BTreeMap;

/// As many as are compared.
const SEEDS: u64 = 8000;

/// Lines with # for a number, -# for one below 0 and V for a vehicle number.
const FORMS: [&str; 52] = [
    "run V",
    "method regular",
    "method shortened # #",
    "cycle # phases #",
    "cycle # phases # #",
    "cycle # phases # # #",
    "cycle # phases # # # #",
    "tolerances # # #",
    "fields # blocks # passed #",
    "offered #",
    "end none #",
    "end stop #",
    "end limit #",
    "stop cycle # position #",
    "stop stretch E",
    "phase # # energy # distance # finished",
    "phase # # energy # distance # open",
    "phase # # energy -# distance # finished",
    "phase # # energy -# distance # open",
    "cycle # energy # distance # outside # finished rate #",
    "cycle # energy # distance # outside # finished",
    "cycle # energy -# distance # outside # finished",
    "cycle # energy # distance # outside # open",
    "cycle # energy -# distance # outside # open",
    "stretch M energy # distance # finished",
    "stretch M energy -# distance # finished",
    "stretch M energy # distance # open",
    "stretch E energy # distance # open",
    "stretch E energy -# distance # open",
    "drawn -#",
    "transfer before # after #",
    "transfer before -# after #",
    "transfer before # after -#",
    "whole -#",
    "weight # # #",
    "weighted #",
    "recharge #",
    "recharge -",
    "ac #",
    "ac -",
    "# # mark",
    "# # vehicle V",
    "# # tolerances # # #",
    "# # stretches # #",
    "# # before #",
    "# # before -#",
    "# # after -#",
    "# # own # #",
    "# # other V",
    "# # recharge #",
    "# # refused # sample # # # #",
    "# # refused # sample # # # -#",
];

/// The form of a line.
fn form(line: &str) -> String {
    let mut form: Vec<&str> = Vec::new();
    for word in line.split(' ') {
        form.push(match form.last() {
            Some(&"run" | &"vehicle" | &"other") => "V",
            _ if word.parse::<u128>().is_ok() => "#",
            _ if word.parse::<i128>().is_ok() => "-#",
            _ => word,
        });
    }
    form.join(" ")
}

/// The name of a line that a form alone does not tell apart.
fn special(line: &str, before: &str, stop: bool) -> Option<String> {
    let words: Vec<&str> = line.split(' ').collect();
    let name = match words[..] {
        ["stop", "cycle", _, "position", "0"] => "stop at position 0",
        ["cycle", _, "energy", "0", "distance", "0", "outside", "1", "open"] => {
            match (stop, before.starts_with("end ")) {
                (true, _) => "nothing closed: a stop",
                (_, true) => "nothing closed: the first cycle goes on",
                _ => "nothing closed: a later cycle goes on",
            }
        }
        ["cycle", .., "rate", "0"] => "rate 0",
        ["cycle", .., "rate", q] if q.parse::<i64>().unwrap() > 10_000_000 => {
            "rate above its limit"
        }
        ["cycle", .., "distance", "0", "outside", _, "finished"] => "a finished cycle stands still",
        [_, _, "refused", number] => return Some(format!("refused {number}")),
        [_, _, "refused", "5", ..] if before.contains(" own ") => "refused 5: a later block",
        [_, _, "refused", "5", ..] => "refused 5: another block",
        _ => return None,
    };
    Some(name.to_string())
}

const SPECIAL: [&str; 18] = [
    "stop at position 0",
    "nothing closed: a stop",
    "nothing closed: the first cycle goes on",
    "nothing closed: a later cycle goes on",
    "rate 0",
    "rate above its limit",
    "a finished cycle stands still",
    "refused 2",
    "refused 3",
    "refused 4",
    "refused 6",
    "refused 8",
    "refused 9",
    "refused 14",
    "refused 15",
    "refused 19",
    "refused 5: a later block",
    "refused 5: another block",
];

#[test]
fn every_form_of_a_line() {
    let mut seen: BTreeMap<String, usize> = BTreeMap::new();
    for seed in 1..=SEEDS {
        let desk = What::Desk.of(&make("small", seed, &[]).unwrap());
        let (mut before, stop) = ("", desk.contains("\nend stop "));
        for line in desk.lines() {
            for name in [Some(form(line)), special(line, before, stop)].into_iter().flatten() {
                *seen.entry(name).or_default() += 1;
            }
            before = line;
        }
    }
    for (name, times) in &seen {
        println!("{times:>8}  {name}");
    }
    for name in FORMS.into_iter().chain(SPECIAL) {
        let times = seen.get(name).copied().unwrap_or(0);
        assert!(times >= 8, "{name} came {times} times");
    }
}
