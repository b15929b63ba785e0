//! The time that the strips span, and where a sample stands on it.

use crate::report::times;
use crate::tracks::findings::Findings;
use crate::tracks::time::{self, Start};

const SECOND: u64 = 1000;
const MINUTE: u64 = 60 * SECOND;
const HOUR: u64 = 60 * MINUTE;

/// Milliseconds between ticks; the first that leaves few enough is taken.
#[rustfmt::skip]
const STEPS: [u64; 26] = [
    1, 2, 5, 10, 20, 50, 100, 200, 500,
    SECOND, 2 * SECOND, 5 * SECOND, 10 * SECOND, 15 * SECOND, 30 * SECOND,
    MINUTE, 2 * MINUTE, 5 * MINUTE, 10 * MINUTE, 15 * MINUTE, 30 * MINUTE,
    HOUR, 2 * HOUR, 4 * HOUR, 12 * HOUR, 24 * HOUR,
];

/// A track so much shorter than the sitting has, in its own part, an axis of its own.
const MUCH_SHORTER: f64 = 0.05;

/// The times of all tracks together.
pub struct Sitting {
    pub start: Start,
    /// The longest of those whose rate is known, in seconds.
    seconds: f64,
    /// The longest of the others, in samples.
    samples: u64,
}

/// The time that one strip spans.
#[derive(Clone, Copy, Debug)]
pub struct Axis {
    rate: Option<u32>,
    start: Start,
    /// From one end to the other, in samples of the track.
    span: f64,
}

pub struct Tick {
    /// Where on the axis, from 0 to 1.
    pub share: f64,
    pub label: String,
}

impl Sitting {
    pub fn of(tracks: &[Findings], start: Start) -> Sitting {
        let timed = tracks.iter().filter_map(seconds);
        let others = tracks.iter().filter(|findings| findings.rate.is_none()).map(Findings::whole);
        Sitting { start, seconds: timed.fold(0.0, f64::max), samples: others.max().unwrap_or(0) }
    }

    /// Whether there are tracks with a rate and tracks without: they cannot share a scale.
    pub fn has_two_scales(&self) -> bool {
        self.seconds > 0.0 && self.samples > 0
    }

    /// The axis that a track shares with the others.
    pub fn axis(&self, findings: &Findings) -> Axis {
        let span = match findings.rate {
            Some(rate) => self.seconds * f64::from(rate.max(1)),
            None => self.samples as f64,
        };
        Axis { rate: findings.rate, start: self.start, span }
    }

    /// The axis of a track's own part: the same, unless nothing could be seen of the track on it.
    pub fn own_axis(&self, findings: &Findings) -> Axis {
        let shared = self.axis(findings);
        let own = findings.whole() as f64;
        let span = if own > 0.0 && own < MUCH_SHORTER * shared.span { own } else { shared.span };
        Axis { span, ..shared }
    }

    /// The axis of the table: of times, if any are known.
    pub fn shared_axis(&self) -> Axis {
        match self.seconds > 0.0 {
            true => Axis { rate: Some(SECOND as u32), start: self.start, span: self.seconds * SECOND as f64 },
            false => Axis { rate: None, start: self.start, span: self.samples as f64 },
        }
    }

    /// How long it was and, where the start is known, from when to when.
    pub fn told(&self) -> String {
        if self.seconds <= 0.0 {
            return format!("{}; no rate is known, and so no times", times::counted(self.samples, "sample"));
        }
        let milliseconds = (self.seconds * SECOND as f64) as u64;
        let length = times::length(milliseconds, Some(SECOND as u32));
        let clock = |at: u64| times::to_the_second(&time::at(at, Some(SECOND as u32), self.start)).to_string();
        match self.start.0 {
            Some(_) => format!("{length}, from {} to {}", clock(0), clock(milliseconds)),
            None => format!("{length}; times are counted from the first sample"),
        }
    }
}

fn seconds(findings: &Findings) -> Option<f64> {
    findings.rate.map(|rate| findings.whole() as f64 / f64::from(rate.max(1)))
}

impl Axis {
    /// Where a sample stands, from 0 to 1.
    pub fn share(&self, sample: u64) -> f64 {
        match self.span > 0.0 {
            true => (sample as f64 / self.span).clamp(0.0, 1.0),
            false => 0.0,
        }
    }

    /// At most so many marks and one more, at round times or samples.
    pub fn ticks(&self, most: u64) -> Vec<Tick> {
        match self.rate {
            Some(rate) => self.ticks_of_time(self.span * SECOND as f64 / f64::from(rate.max(1)), most),
            None => self.ticks_of_samples(most),
        }
    }

    fn ticks_of_time(&self, span: f64, most: u64) -> Vec<Tick> {
        let few_enough = |step: &u64| span / *step as f64 <= most as f64;
        let step = STEPS.iter().copied().find(few_enough).unwrap_or_else(|| days(span, most));
        let start = self.start.0.unwrap_or(0);
        let first = start.next_multiple_of(step) - start;
        let places = (0..=most).filter_map(|tick| tick.checked_mul(step)?.checked_add(first)).take_while(|at| *at as f64 <= span);
        places.map(|at| Tick { share: if span > 0.0 { at as f64 / span } else { 0.0 }, label: self.label(at, step) }).collect()
    }

    /// A time without the parts that are 0 at every tick.
    fn label(&self, milliseconds: u64, step: u64) -> String {
        let time = time::at(milliseconds, Some(SECOND as u32), self.start);
        let spare = match step {
            _ if step.is_multiple_of(MINUTE) && self.start.0.is_some() => ":00.000".len(),
            _ if step.is_multiple_of(SECOND) => ".000".len(),
            _ => 0,
        };
        time[..time.len() - spare].to_string()
    }

    fn ticks_of_samples(&self, most: u64) -> Vec<Tick> {
        let steps = (0..19).flat_map(|power| [1, 2, 5].map(|digit| digit * 10_u64.pow(power)));
        let step = steps.into_iter().find(|step| self.span / *step as f64 <= most as f64).unwrap_or(u64::MAX);
        let places = (0..=most).filter_map(|tick| tick.checked_mul(step)).take_while(|at| *at as f64 <= self.span);
        places.map(|at| Tick { share: self.share(at), label: times::grouped(at) }).collect()
    }
}

/// Whole days.
fn days(span: f64, most: u64) -> u64 {
    let day = 24 * HOUR;
    // A start of any day stays far below what is left.
    day * ((span / (day * most.max(1)) as f64).ceil() as u64).clamp(1, u64::MAX / day / 4)
}

#[cfg(test)]
mod tests {
    use super::*;

    fn track(rate: Option<u32>, samples: u64) -> Findings {
        let mut findings = Findings::new("x");
        (findings.rate, findings.samples) = (rate, samples);
        findings
    }

    fn labels(axis: Axis, most: u64) -> Vec<String> {
        axis.ticks(most).into_iter().map(|tick| tick.label).collect()
    }

    #[test]
    fn ticks_stand_at_round_times() {
        let hour = [track(Some(48_000), 48_000 * 3600)];
        let sitting = Sitting::of(&hour, Start(None));
        assert_eq!(labels(sitting.axis(&hour[0]), 6), ["0:00:00", "0:10:00", "0:20:00", "0:30:00", "0:40:00", "0:50:00", "1:00:00"]);
        let evening = Sitting::of(&hour, Start::parse("23:25:30").unwrap());
        assert_eq!(labels(evening.axis(&hour[0]), 3), ["23:30", "00:00"]);
        assert_eq!(labels(evening.shared_axis(), 3), ["23:30", "00:00"]);
    }

    #[test]
    fn without_a_rate_ticks_are_samples() {
        let tracks = [track(None, 2500)];
        let sitting = Sitting::of(&tracks, Start(None));
        assert_eq!(labels(sitting.axis(&tracks[0]), 5), ["0", "500", "1\u{202f}000", "1\u{202f}500", "2\u{202f}000", "2\u{202f}500"]);
        assert_eq!(sitting.told(), "2\u{202f}500 samples; no rate is known, and so no times");
    }

    #[test]
    fn tracks_of_two_rates_share_the_time() {
        let tracks = [track(Some(48_000), 48_000 * 10), track(Some(8000), 8000 * 5)];
        let sitting = Sitting::of(&tracks, Start(None));
        assert_eq!(sitting.axis(&tracks[0]).share(240_000), 0.5);
        assert_eq!(sitting.axis(&tracks[1]).share(40_000), 0.5);
        assert!(!sitting.has_two_scales());
    }

    #[test]
    fn a_track_that_is_much_shorter_has_an_axis_of_its_own() {
        let tracks = [track(Some(1000), 1_000_000), track(Some(1000), 2000), track(Some(1000), 200_000)];
        let sitting = Sitting::of(&tracks, Start(None));
        assert_eq!(sitting.own_axis(&tracks[1]).share(1000), 0.5);
        assert_eq!(sitting.own_axis(&tracks[2]).share(100_000), 0.1);
    }

    #[test]
    fn any_span_has_few_ticks() {
        for samples in [0, 1, 2, 47, 48_000, 172_800_000, 48_000 * 3600 * 24 * 40, 1 << 40, u64::MAX] {
            for rate in [None, Some(1), Some(48_000), Some(0), Some(u32::MAX)] {
                for start in [Start(None), Start(Some(86_399_000))] {
                    let tracks = [track(rate, samples)];
                    let ticks = Sitting::of(&tracks, start).axis(&tracks[0]).ticks(8);
                    assert!(ticks.len() <= 9 && ticks.iter().all(|tick| (0.0..=1.0).contains(&tick.share)), "{samples} {rate:?}");
                }
            }
        }
    }
}
