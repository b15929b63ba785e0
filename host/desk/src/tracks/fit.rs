//! Which source is on a track: the gains by which the sources add up to it, by least squares.

/// More sources than this are not fitted.
pub const MOST: usize = 16;

/// Fewer samples tell nothing of gains.
const FEWEST: u64 = 480;

/// A source quieter than this (the mean of its squares) has no gain that could be told.
const QUIET: f64 = 16.0;

/// A source is told apart from the others if at least this part of its power is its own.
const APART: f64 = 1e-4;

/// Sums over a stretch of samples, from which the gains follow: of the products of all pairs of sources and a constant, and of each with
/// what the chip sends and what the desk sent.
#[derive(Clone, Debug)]
pub struct Sums {
    sources: usize,
    pub samples: u64,
    /// Of source times source, the constant last; the lower triangle, row by row.
    pairs: [i64; PAIRS],
    chip: [i64; MOST + 1],
    sent: [i64; MOST + 1],
    /// Of the squares of what was sent.
    power: i64,
}

const PAIRS: usize = (MOST + 1) * (MOST + 2) / 2;

/// The gain of one source, in what the chip sends and in what the desk sent; none where it cannot be told.
#[derive(Clone, Copy, Debug, PartialEq)]
pub struct Share {
    pub asked: f64,
    pub found: f64,
    /// The root of the mean square of the source itself.
    pub level: f64,
}

/// What was found over a stretch.
#[derive(Clone, Debug, PartialEq)]
pub struct Shares {
    /// One for each source; none where it is silent or cannot be told from the others.
    pub sources: Vec<Option<Share>>,
    /// The root of the mean square of what was sent.
    pub level: f64,
    /// The same of what is left of it without the sources.
    pub rest: f64,
}

impl Sums {
    pub fn new(sources: usize) -> Sums {
        Sums { sources: sources.min(MOST), samples: 0, pairs: [0; PAIRS], chip: [0; MOST + 1], sent: [0; MOST + 1], power: 0 }
    }

    /// Adds one sample. A second of any rate stays far within 64 bits; more is added as sums.
    #[inline]
    pub fn sample(&mut self, inputs: &[i16], chip: i16, sent: i16) {
        let (chip, sent) = (i64::from(chip), i64::from(sent));
        let mut at = 0;
        for row in 0..self.sources {
            let value = i64::from(inputs.get(row).copied().unwrap_or(0));
            for other in inputs.iter().take(row) {
                self.pairs[at] += value * i64::from(*other);
                at += 1;
            }
            self.pairs[at] += value * value;
            at += 1;
            self.chip[row] += value * chip;
            self.sent[row] += value * sent;
            self.pairs[constant(self.sources, row)] += value;
        }
        self.chip[self.sources] += chip;
        self.sent[self.sources] += sent;
        self.pairs[constant(self.sources, self.sources)] += 1;
        self.power += sent * sent;
        self.samples += 1;
    }

    /// The gains over what was added so far.
    pub fn shares(&self) -> Shares {
        let unknowns = self.sources + 1;
        let mean = |sum: i64| sum as f64 / (self.samples.max(1)) as f64;
        let told = self.told_apart();
        let asked = self.solved(&told, &self.chip);
        let found = self.solved(&told, &self.sent);
        let sources = (0..self.sources).map(|at| {
            let level = mean(self.pairs[place(at, at)]).sqrt();
            told[at].then(|| Share { asked: asked[at], found: found[at], level })
        });
        let explained: f64 = (0..unknowns).map(|at| found[at] * mean(self.sent[at])).sum();
        let power = mean(self.power);
        Shares { sources: sources.collect(), level: power.sqrt(), rest: (power - explained).max(0.0).sqrt() }
    }

    fn pair(&self, one: usize, other: usize) -> f64 {
        self.pairs[place(one.max(other), one.min(other))] as f64 / self.samples.max(1) as f64
    }

    /// The sources that have a gain: neither silent nor a mix of those before it. The constant, last, always has one if anything was added.
    fn told_apart(&self) -> Vec<bool> {
        let unknowns = self.sources + 1;
        let mut told = vec![false; unknowns];
        told[self.sources] = self.samples > 0;
        for at in 0..self.sources {
            if self.samples < FEWEST || self.pair(at, at) < QUIET {
                continue;
            }
            told[at] = true;
            let others: Vec<usize> = (0..unknowns).filter(|other| told[*other] && *other != at).collect();
            let right: Vec<f64> = others.iter().map(|other| self.pair(at, *other)).collect();
            let gains = self.solve(&others, &right);
            let explained: f64 = gains.iter().zip(&right).map(|(gain, product)| gain * product).sum();
            told[at] = self.pair(at, at) - explained > APART * self.pair(at, at);
        }
        told
    }

    fn solved(&self, told: &[bool], right: &[i64]) -> Vec<f64> {
        let unknowns: Vec<usize> = (0..told.len()).filter(|at| told[*at]).collect();
        let right: Vec<f64> = unknowns.iter().map(|at| right[*at] as f64 / self.samples.max(1) as f64).collect();
        let mut gains = vec![0.0; told.len()];
        for (at, gain) in unknowns.iter().zip(self.solve(&unknowns, &right)) {
            gains[*at] = gain;
        }
        gains
    }

    /// Gauss's elimination with the largest pivot of the column first, over these unknowns.
    fn solve(&self, unknowns: &[usize], right: &[f64]) -> Vec<f64> {
        let count = unknowns.len();
        let mut rows: Vec<Vec<f64>> = unknowns
            .iter()
            .zip(right)
            .map(|(row, right)| unknowns.iter().map(|column| self.pair(*row, *column)).chain([*right]).collect())
            .collect();
        for column in 0..count {
            let largest = (column..count).max_by(|one, other| rows[*one][column].abs().total_cmp(&rows[*other][column].abs()));
            rows.swap(column, largest.unwrap_or(column));
            let pivot = rows[column].clone();
            if pivot[column] == 0.0 {
                continue;
            }
            for row in rows.iter_mut().skip(column + 1) {
                let factor = row[column] / pivot[column];
                row.iter_mut().zip(&pivot).for_each(|(value, of_pivot)| *value -= factor * of_pivot);
            }
        }
        let mut gains = vec![0.0; count];
        for at in (0..count).rev() {
            let known: f64 = (at + 1..count).map(|later| rows[at][later] * gains[later]).sum();
            let left = rows[at][count] - known;
            gains[at] = if rows[at][at] == 0.0 { 0.0 } else { left / rows[at][at] };
        }
        gains
    }
}

/// Adds the sums of a later stretch. Sums of many hours of full scale leave 64 bits; they stay at the end of the range.
impl crate::tracks::strip::Joins for Sums {
    fn join(&mut self, later: &Sums) {
        let add = |sums: &mut [i64], others: &[i64]| sums.iter_mut().zip(others).for_each(|(sum, other)| *sum = sum.saturating_add(*other));
        add(&mut self.pairs, &later.pairs);
        add(&mut self.chip, &later.chip);
        add(&mut self.sent, &later.sent);
        self.power = self.power.saturating_add(later.power);
        self.samples += later.samples;
    }
}

/// Where the sum of a pair stands, the larger of the two first.
fn place(row: usize, column: usize) -> usize {
    row * (row + 1) / 2 + column
}

/// Where the sum of a source with the constant stands, which is the unknown after all sources.
fn constant(sources: usize, source: usize) -> usize {
    place(sources, source)
}

#[cfg(test)]
mod tests {
    use super::*;
    use random::Random;

    /// Noise of its own for each seed.
    fn noise(seed: u64) -> impl FnMut() -> i16 {
        let mut random = Random::new(seed);
        move || random.word() as i16 >> 2
    }

    fn mixed(inputs: &[i16], gains: &[f64]) -> i16 {
        inputs.iter().zip(gains).map(|(input, gain)| f64::from(*input) * gain).sum::<f64>().floor() as i16
    }

    fn fitted(asked: [f64; 3], found: [f64; 3]) -> Shares {
        let mut sums = Sums::new(3);
        let mut sources = [noise(1), noise(2), noise(3)];
        for _ in 0..48_000 {
            let inputs = [0, 1, 2].map(|at| sources[at]());
            sums.sample(&inputs, mixed(&inputs, &asked), mixed(&inputs, &found));
        }
        sums.shares()
    }

    #[test]
    fn the_gains_of_a_mix_are_found() {
        let (asked, found) = ([0.5, 0.25, 0.355], [0.0, 0.5, -0.355]);
        let shares = fitted(asked, found);
        for (at, share) in shares.sources.iter().enumerate() {
            let share = share.expect("a source that is heard");
            assert!((share.asked - asked[at]).abs() < 1e-3 && (share.found - found[at]).abs() < 1e-3, "{share:?}");
        }
        assert!(shares.rest < 2.0, "{shares:?}");
    }

    #[test]
    fn a_silent_source_has_no_gain() {
        let mut sums = Sums::new(2);
        let mut source = noise(5);
        for _ in 0..1000 {
            let value = source();
            sums.sample(&[0, value], value / 2, value / 2);
        }
        let shares = sums.shares();
        assert_eq!(shares.sources[0], None);
        assert!((shares.sources[1].expect("a gain").found - 0.5).abs() < 1e-2);
    }

    #[test]
    fn two_sources_that_are_the_same_are_not_told_apart() {
        let mut sums = Sums::new(2);
        let mut source = noise(7);
        for _ in 0..1000 {
            let value = source();
            sums.sample(&[value, value], value, value);
        }
        let told = sums.shares().sources.iter().flatten().count();
        assert_eq!(told, 1);
    }

    #[test]
    fn what_is_none_of_the_sources_is_left_over() {
        let mut sums = Sums::new(1);
        let (mut source, mut other) = (noise(8), noise(9));
        for _ in 0..48_000 {
            sums.sample(&[source()], 0, other());
        }
        let shares = sums.shares();
        assert!(shares.rest > 0.99 * shares.level, "{shares:?}");
    }

    #[test]
    fn nothing_at_all_is_no_trouble() {
        assert_eq!(Sums::new(3).shares().sources, [None, None, None]);
        assert_eq!(Sums::new(0).shares().level, 0.0);
    }
}
