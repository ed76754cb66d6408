//! The cycle that is driven: its rules, the target on the grid, and the
//! tolerance band.

/// Positions in one second of the cycle.
pub const PER_SECOND: i128 = 20;
/// The greatest speed of a point or a sample, in 0.1 km/h.
pub const TOP_SPEED: i128 = 1500;

/// A cycle: phase ends in seconds and T+1 points in 0.1 km/h.
#[derive(Clone, Debug, PartialEq)]
pub struct Cycle {
    pub phase_ends: Vec<i128>,
    pub points: Vec<i128>,
}

/// The least and greatest value of twenty times the target in a window.
#[derive(Clone, Copy, Debug, PartialEq)]
pub struct Band {
    pub lo: i128,
    pub hi: i128,
}

/// The least and the greatest whole speed that is inside at one position.
/// Where no whole speed is inside, `least` is above `most`.
#[derive(Clone, Copy, Debug, PartialEq)]
pub struct Gate {
    pub least: i16,
    pub most: i16,
}

/// What the band says of one speed.
#[derive(Clone, Copy, Debug, PartialEq)]
pub enum Verdict {
    Inside,
    Below,
    Above,
}

impl Cycle {
    /// Reads the value of field 3. `None` is refusal 2.
    pub fn from_bytes(value: &[u8]) -> Option<Cycle> {
        let phases = usize::from(*value.first()?);
        let numbers = two_byte_numbers(&value[1..])?;
        if numbers.len() < phases {
            return None;
        }
        let cycle =
            Cycle { phase_ends: numbers[..phases].to_vec(), points: numbers[phases..].to_vec() };
        cycle.keeps_the_rules().then_some(cycle)
    }

    /// T, the length in seconds.
    pub fn seconds(&self) -> i128 {
        self.points.len() as i128 - 1
    }

    /// 20T, the number of positions.
    pub fn positions(&self) -> i128 {
        PER_SECOND * self.seconds()
    }

    fn keeps_the_rules(&self) -> bool {
        (2..=2400).contains(&self.seconds())
            && self.phases_keep_the_rules()
            && self.points.iter().all(|point| (0..=TOP_SPEED).contains(point))
    }

    fn phases_keep_the_rules(&self) -> bool {
        let ends = &self.phase_ends;
        (1..=4).contains(&ends.len())
            && ends[0] >= 1
            && ends.windows(2).all(|pair| pair[1] > pair[0])
            && ends[ends.len() - 1] == self.seconds()
    }

    /// Twenty times the target at a grid place 0..=20T.
    pub fn target(&self, place: i128) -> i128 {
        let k = (place / PER_SECOND) as usize;
        let r = place % PER_SECOND;
        if place == self.positions() {
            return 20 * self.points[k];
        }
        (20 - r) * self.points[k] + r * self.points[k + 1]
    }

    /// First and last grid place of the window at position p.
    fn window(&self, p: i128, w: i128) -> (i128, i128) {
        ((p - w).max(0), (p + w).min(self.positions()))
    }

    /// The band at position p, by walking over every place of the window:
    /// the paper's sentence, word for word.
    pub fn band_by_walking(&self, p: i128, w: i128) -> Band {
        let (from, to) = self.window(p, w);
        let values: Vec<i128> = (from..=to).map(|place| self.target(place)).collect();
        band_over(&values)
    }

    /// The band at every position. The target runs straight from one whole
    /// second to the next, so its least and greatest value in a window stand
    /// at an end of the window or at a whole second inside it.
    pub fn band_table(&self, w: i128) -> Vec<Band> {
        (0..self.positions()).map(|p| self.band_at_corners(p, w)).collect()
    }

    fn band_at_corners(&self, p: i128, w: i128) -> Band {
        let (from, to) = self.window(p, w);
        let mut band = band_over(&[self.target(from), self.target(to)]);
        for second in from / PER_SECOND + 1..=to / PER_SECOND {
            let value = 20 * self.points[second as usize];
            band.lo = band.lo.min(value);
            band.hi = band.hi.max(value);
        }
        band
    }

    /// The gate at every position, for speed tolerance s and time tolerance w.
    pub fn gate_table(&self, s: i128, w: i128) -> Vec<Gate> {
        self.band_table(w).iter().map(|band| band.gate(s)).collect()
    }
}

impl Gate {
    /// Is the speed inside?
    pub fn takes(&self, speed: i16) -> bool {
        self.least <= speed && speed <= self.most
    }
}

impl Band {
    /// The paper's sentence: inside when lo <= 20v + 20s and 20v <= hi + 20s.
    pub fn verdict(&self, s: i128, v: i128) -> Verdict {
        if self.lo > 20 * v + 20 * s {
            Verdict::Below
        } else if 20 * v > self.hi + 20 * s {
            Verdict::Above
        } else {
            Verdict::Inside
        }
    }

    /// The same sentence solved for v.
    pub fn gate(&self, s: i128) -> Gate {
        let least = (self.lo - 20 * s + 19).div_euclid(20);
        let most = (self.hi + 20 * s).div_euclid(20);
        Gate { least: least as i16, most: most as i16 }
    }
}

fn band_over(values: &[i128]) -> Band {
    Band { lo: *values.iter().min().unwrap(), hi: *values.iter().max().unwrap() }
}

/// The bytes as two-byte numbers; `None` when one byte is left over.
fn two_byte_numbers(bytes: &[u8]) -> Option<Vec<i128>> {
    if bytes.len() % 2 == 1 {
        return None;
    }
    Some(bytes.chunks(2).map(|pair| i128::from(pair[0]) * 256 + i128::from(pair[1])).collect())
}
