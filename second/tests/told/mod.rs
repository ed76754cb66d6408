//! A trace read back: the numbers of its lines.
#![allow(dead_code)]

/// A trace, line by line in words.
pub struct Told<'a> {
    lines: Vec<Vec<&'a str>>,
}

/// A phase, a cycle or a stretch. `names` are the words before its energy, with
/// the kind of line in front; `outside` is there for a cycle.
pub struct Amounts<'a> {
    pub names: Vec<&'a str>,
    pub energy: i128,
    pub distance: i128,
    pub outside: Option<i128>,
    pub finished: bool,
    pub rate: Option<i128>,
}

impl<'a> Told<'a> {
    pub fn new(trace: &'a str) -> Told<'a> {
        Told { lines: trace.lines().map(|line| line.split(' ').collect()).collect() }
    }

    /// The word at this place of the line that begins with `first`, if it is there.
    pub fn word(&self, first: &str, at: usize) -> Option<&'a str> {
        self.lines.iter().find(|line| line[0] == first).map(|line| line[at])
    }

    /// The same as a number.
    pub fn number(&self, first: &str, at: usize) -> i128 {
        self.word(first, at).unwrap_or_else(|| panic!("no line {first}")).parse().unwrap()
    }

    /// All phases, cycles or stretches, in order.
    pub fn amounts(&self, kind: &str) -> Vec<Amounts<'a>> {
        self.lines.iter().filter(|line| line[0] == kind).filter_map(|line| amounts(line)).collect()
    }

    /// The weights: what stands above, and the number below, which all share.
    pub fn weights(&self) -> (Vec<i128>, i128) {
        let lines = self.lines.iter().filter(|line| line[0] == "weight");
        let number = |word: &str| word.parse::<i128>().unwrap();
        let pairs: Vec<(i128, i128)> =
            lines.map(|line| (number(line[2]), number(line[3]))).collect();
        let below = pairs[0].1;
        assert!(pairs.iter().all(|pair| pair.1 == below));
        (pairs.iter().map(|pair| pair.0).collect(), below)
    }
}

/// The line of a phase, a cycle or a stretch; the cycle's own line is none.
fn amounts<'a>(line: &[&'a str]) -> Option<Amounts<'a>> {
    let at = line.iter().position(|word| *word == "energy")?;
    let behind = |name: &str| -> Option<i128> {
        let at = line.iter().position(|word| *word == name)?;
        Some(line[at + 1].parse().unwrap())
    };
    Some(Amounts {
        names: line[..at].to_vec(),
        energy: behind("energy")?,
        distance: behind("distance")?,
        outside: behind("outside"),
        finished: line.contains(&"finished"),
        rate: behind("rate"),
    })
}
