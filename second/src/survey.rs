//! A survey: how often each answer occurs among made records.

use crate::make::make;
use crate::sheet::sheet;
use std::collections::BTreeMap;

/// Makes `count` records from seeds 1 on and counts what their sheets say.
/// `None` for an unknown kind.
pub fn survey(kind: &str, count: u64, options: &[usize]) -> Option<String> {
    let mut seen: BTreeMap<String, usize> = BTreeMap::new();
    for seed in 1..=count {
        for answer in answers_of(&sheet(&make(kind, seed, options)?)) {
            *seen.entry(answer).or_default() += 1;
        }
    }
    let lines = seen.iter().map(|(answer, times)| format!("{times:>8}  {answer}\n"));
    Some(format!("{count} records of {kind}\n{}", lines.collect::<String>()))
}

/// The first word pair of every line that tells answers apart.
pub fn answers_of(sheet: &str) -> Vec<String> {
    let mut answers = Vec::new();
    let mut before = "";
    for line in sheet.lines() {
        let words: Vec<&str> = line.split(' ').collect();
        match words[..] {
            ["end", how, _] => answers.push(format!("end {how}")),
            ["range", _] => answers.push("range printed".to_string()),
            ["ac", "-"] => answers.push("ac absent".to_string()),
            ["ac", "0"] => answers.push("ac 0".to_string()),
            ["ac", _] => answers.push("ac figure above 0".to_string()),
            ["refused", n, "field", _] => answers.push(format!("refused {n:>2} field")),
            ["refused", n] => answers.push(format!("refused {n:>2} after {before}")),
            _ => {}
        }
        before = words[0];
    }
    answers
}
