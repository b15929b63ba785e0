//! When a sample was sent: time from the start or time of day, as a person says it.

const DAY: u64 = 24 * 3600 * 1000;

/// When sample 0 was sent, in milliseconds of the day, if it is known.
#[derive(Clone, Copy, Debug, Default, PartialEq, Eq)]
pub struct Start(pub Option<u64>);

impl Start {
    /// A time of day as it is given: HH:MM or HH:MM:SS.
    pub fn parse(text: &str) -> Option<Start> {
        let parts: Vec<&str> = text.split(':').collect();
        let number = |part: &&str, limit: u64| {
            let digits = (1..=2).contains(&part.len()) && part.bytes().all(|byte| byte.is_ascii_digit());
            part.parse::<u64>().ok().filter(|number| digits && *number < limit)
        };
        let (hours, minutes) = (number(parts.first()?, 24)?, number(parts.get(1)?, 60)?);
        let seconds = parts.get(2).map_or(Some(0), |part| number(part, 60))?;
        (parts.len() <= 3).then_some(Start(Some(((hours * 60 + minutes) * 60 + seconds) * 1000)))
    }
}

/// When a sample was sent. Without a rate no time is known, and the sample alone tells.
pub fn at(sample: u64, rate: Option<u32>, start: Start) -> String {
    match (rate, start.0) {
        (None, _) => format!("sample {sample}"),
        (Some(rate), None) => from_start(milliseconds(sample, rate)),
        (Some(rate), Some(start)) => of_day((start % DAY + milliseconds(sample, rate) % DAY) % DAY),
    }
}

/// How long so many samples last.
pub fn length(samples: u64, rate: Option<u32>) -> String {
    match rate {
        Some(rate) => from_start(milliseconds(samples, rate)),
        None => format!("{samples} samples"),
    }
}

fn milliseconds(samples: u64, rate: u32) -> u64 {
    u64::try_from(u128::from(samples) * 1000 / u128::from(rate.max(1))).unwrap_or(u64::MAX)
}

fn from_start(milliseconds: u64) -> String {
    let (seconds, rest) = (milliseconds / 1000, milliseconds % 1000);
    format!("{}:{:02}:{:02}.{rest:03}", seconds / 3600, seconds / 60 % 60, seconds % 60)
}

fn of_day(milliseconds: u64) -> String {
    let (seconds, rest) = (milliseconds / 1000, milliseconds % 1000);
    format!("{:02}:{:02}:{:02}.{rest:03}", seconds / 3600, seconds / 60 % 60, seconds % 60)
}

#[cfg(test)]
mod tests {
    use super::*;

    #[test]
    fn times_are_printed_from_the_start_or_of_the_day() {
        assert_eq!(at(48 * 61_500, Some(48_000), Start(None)), "0:01:01.500");
        assert_eq!(at(48_000 * 3600, Some(48_000), Start::parse("23:30").unwrap()), "00:30:00.000");
        assert_eq!(at(1, Some(48_000), Start::parse("09:05:07").unwrap()), "09:05:07.000");
        assert_eq!(at(7, None, Start(None)), "sample 7");
        assert_eq!(length(96_000, Some(48_000)), "0:00:02.000");
    }

    #[test]
    fn what_is_no_time_of_day_is_none() {
        for text in ["", "9", "24:00", "12:60", "12:00:60", "12:00:00:00", "+1:00", "1 :00", "012:00", "12:0x"] {
            assert_eq!(Start::parse(text), None, "{text:?}");
        }
    }
}
