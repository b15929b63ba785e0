//! Times, lengths and levels as the page writes them.

use crate::sound::levels;
use crate::tracks::findings::Findings;
use crate::tracks::time::{self, Start};

/// On a track shorter than this, a difference is told to the fraction of a second.
const SHORT: u64 = 60;

/// When, to the millisecond, and which sample.
pub fn exact(findings: &Findings, sample: u64, start: Start) -> String {
    match findings.rate {
        Some(_) => format!("{} (sample {sample})", time::at(sample, findings.rate, start)),
        None => format!("sample {sample}"),
    }
}

/// When, as exactly as a person would say it.
pub fn about(findings: &Findings, sample: u64, start: Start) -> String {
    let when = time::at(sample, findings.rate, start);
    match findings.rate {
        None => when,
        Some(rate) if findings.whole() < SHORT * u64::from(rate) => shortened(&when).to_string(),
        Some(_) => to_the_second(&when).to_string(),
    }
}

/// How long so many samples last, without zeros that say nothing.
pub fn length(samples: u64, rate: Option<u32>) -> String {
    match rate {
        Some(_) => shortened(&time::length(samples, rate)).to_string(),
        None => counted(samples, "sample"),
    }
}

/// A time without the zeros at the end of its fraction.
pub fn shortened(time: &str) -> &str {
    match time.contains('.') {
        true => time.trim_end_matches('0').trim_end_matches('.'),
        false => time,
    }
}

/// A time without its fraction.
pub fn to_the_second(time: &str) -> &str {
    time.split('.').next().unwrap_or(time)
}

/// A number of things, with its digits in threes.
pub fn counted(count: u64, thing: &str) -> String {
    match count {
        1 => format!("1 {thing}"),
        _ => format!("{} {thing}s", grouped(count)),
    }
}

/// Digits in threes, with narrow spaces that do not break.
pub fn grouped(count: u64) -> String {
    let digits = count.to_string();
    let mut grouped = String::new();
    for (at, digit) in digits.chars().enumerate() {
        if at > 0 && (digits.len() - at).is_multiple_of(3) {
            grouped.push('\u{202f}');
        }
        grouped.push(digit);
    }
    grouped
}

/// A ratio of amplitudes in decibels, with a minus that is as wide as a plus.
pub fn decibels(ratio: f64) -> String {
    levels::print(levels::decibels(ratio)).replace('-', "\u{2212}")
}

#[cfg(test)]
mod tests {
    use super::*;

    #[test]
    fn zeros_that_say_nothing_are_left_out() {
        assert_eq!(length(48_000 * 600, Some(48_000)), "0:10:00");
        assert_eq!(length(48 * 299_900, Some(48_000)), "0:04:59.9");
        assert_eq!(length(1, None), "1 sample");
        assert_eq!(length(1200, None), "1\u{202f}200 samples");
        assert_eq!(shortened("0:10:00"), "0:10:00");
    }

    #[test]
    fn a_time_is_as_exact_as_the_track_is_short() {
        let mut findings = Findings::new("x");
        (findings.rate, findings.samples) = (Some(48_000), 48_000 * 59);
        assert_eq!(about(&findings, 24_000, Start(None)), "0:00:00.5");
        findings.samples = 48_000 * 60;
        assert_eq!(about(&findings, 24_000, Start(None)), "0:00:00");
        assert_eq!(exact(&findings, 24_000, Start(None)), "0:00:00.500 (sample 24000)");
    }

    #[test]
    fn digits_stand_in_threes() {
        assert_eq!([0, 999, 1000, 172_800_000].map(grouped), ["0", "999", "1\u{202f}000", "172\u{202f}800\u{202f}000"]);
    }

    #[test]
    fn decibels_have_a_real_minus() {
        assert_eq!(decibels(0.5), "\u{2212}6.0 dB");
        assert_eq!(decibels(1.0), "0.0 dB");
    }
}
