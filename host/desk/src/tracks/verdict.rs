//! What became of a track, in one word, and in one sentence that a coordinator understands.

use crate::chip::event::refusal;
use crate::numbers;
use crate::sound::levels;
use crate::tracks::extent::Extent;
use crate::tracks::findings::{Chip, Difference, Findings};
use crate::tracks::heard::{self, Summary};
use crate::tracks::time::{self, Start};
use std::fmt;

#[derive(Clone, Copy, Debug, PartialEq, Eq)]
pub enum Verdict {
    Agrees,
    Differs,
    Incomplete,
    Unreadable,
}

impl Verdict {
    pub const ALL: [Verdict; 4] = [Verdict::Agrees, Verdict::Differs, Verdict::Incomplete, Verdict::Unreadable];

    /// A track that cannot be read is that first of all: what was compared may not be what was recorded.
    pub fn of(findings: &Findings) -> Verdict {
        if findings.unreadable.is_some() {
            Verdict::Unreadable
        } else if findings.differing > 0 || findings.failed.is_some() {
            Verdict::Differs
        } else if findings.missing.is_some() {
            Verdict::Incomplete
        } else {
            Verdict::Agrees
        }
    }

    pub fn name(self) -> &'static str {
        match self {
            Verdict::Agrees => "agrees",
            Verdict::Differs => "differs",
            Verdict::Incomplete => "incomplete",
            Verdict::Unreadable => "unreadable",
        }
    }
}

impl fmt::Display for Verdict {
    fn fmt(&self, f: &mut fmt::Formatter) -> fmt::Result {
        f.write_str(self.name())
    }
}

/// One sentence about a track, in plain words.
pub fn sentence(findings: &Findings, start: Start) -> String {
    let mut parts = Vec::new();
    if let Some(fault) = &findings.unreadable {
        parts.push(fault.to_string());
    }
    if let Some(fault) = &findings.failed {
        parts.push(fault.to_string());
    }
    if let Some(difference) = &findings.first {
        parts.push(differs(findings, difference, start));
        parts.extend(on_the_track(findings));
    }
    if let Some(missing) = &findings.missing {
        parts.push(missing.clone());
    }
    if parts.is_empty() {
        parts.push(match findings.samples {
            1 => "1 sample, as the chip sends it".to_string(),
            samples => format!("{}{}, all as the chip sends them", counted(samples), lasting(findings)),
        });
        if findings.is_silent() {
            parts.push("it is silent all the time".to_string());
        }
    } else if findings.first.is_none() && findings.samples > 0 {
        let are = if findings.samples == 1 { "is as the chip sends it" } else { "are as the chip sends them" };
        parts.push(format!("the {} that could be compared {are}", counted(findings.samples)));
    }
    parts.extend(findings.notes.iter().cloned());
    parts.join("; ")
}

fn lasting(findings: &Findings) -> String {
    findings.rate.map_or_else(String::new, |_| format!(" ({})", time::length(findings.samples, findings.rate)))
}

fn differs(findings: &Findings, difference: &Difference, start: Start) -> String {
    let at = |sample| match findings.rate {
        Some(_) => format!("{} (sample {sample})", time::at(sample, findings.rate, start)),
        None => format!("sample {sample}"),
    };
    let (first, last) = (at(difference.sample), at(findings.last));
    let when = match Extent::of(findings, difference.sample) {
        Extent::One => format!("at {first}"),
        Extent::Scattered => format!("here and there from {first} to {last}; at the first of these samples"),
        Extent::Stretch { lasts, now_and_then } => {
            let now_and_then = if now_and_then { "now and then, " } else { "" };
            let to = if lasts { "on".to_string() } else { format!("to {last}") };
            format!("{now_and_then}from {first} {to}; at the first of these samples")
        }
    };
    let sent = numbers::register(difference.sent);
    let chip = match difference.chip {
        Chip::Sends(word) => format!("the chip sends {}", numbers::register(word)),
        Chip::Refuses(number) => format!("the chip sends nothing ({})", refusal(findings.device, number)),
    };
    let largest = match findings.largest.error {
        0 => String::new(),
        error => format!(", by {} at most ({})", steps(error), levels::print(levels::decibels(f64::from(error) / levels::FULL_SCALE))),
    };
    let place = difference.place.map_or_else(String::new, |place| format!(" ({place})"));
    let (differing, samples) = (findings.differing, counted(findings.samples));
    let differ = if differing == 1 { "differs" } else { "differ" };
    format!("{when} the desk sent {sent}, {chip}{place}; {differing} of {samples} {differ}{largest}")
}

fn counted(samples: u64) -> String {
    match samples {
        1 => "1 sample".to_string(),
        _ => format!("{samples} samples"),
    }
}

fn steps(error: u32) -> String {
    match error {
        1 => "1 step".to_string(),
        _ => format!("{error} steps"),
    }
}

/// Which sources are on the track where it differs, against what the program and preset ask for.
pub fn on_the_track(findings: &Findings) -> Option<String> {
    Some(match heard::summary(findings, &findings.shares_where_it_differs()?)? {
        Summary::Right => "the sources on it are the right ones".to_string(),
        Summary::Wrong(what) => what,
    })
}

#[cfg(test)]
mod tests {
    use super::*;
    use crate::tracks::samples;

    /// What stands before the word that was sent, and how many differ.
    fn begins(findings: &Findings, beginning: &str, differ: &str) {
        let said = sentence(findings, Start(None));
        assert!(
            said.starts_with(&format!("{beginning} the desk sent ")) && said.contains(&format!("; {differ} of 80000 samples ")),
            "{said}"
        );
    }

    #[test]
    fn a_line_tells_over_how_much_of_a_track_it_is_wrong() {
        begins(&samples::flipped("x", 40_000), "at 0:00:05.000 (sample 40000)", "1");
        let few = samples::disturbed("x", |at| at == 8000 || at == 16_000);
        begins(&few, "here and there from 0:00:01.000 (sample 8000) to 0:00:02.000 (sample 16000); at the first of these samples", "2");
        let many = samples::disturbed("x", |at| at % 101 == 0);
        begins(&many, "here and there from 0:00:00.000 (sample 0) to 0:00:09.999 (sample 79992); at the first of these samples", "793");
        let two = samples::disturbed("x", |at| at == 3 || at == 4);
        begins(&two, "from 0:00:00.000 (sample 3) to 0:00:00.000 (sample 4); at the first of these samples", "2");
        let since_then = samples::disturbed("x", |at| at >= 42_000);
        begins(&since_then, "from 0:00:05.250 (sample 42000) on; at the first of these samples", "38000");
        let again_right = samples::disturbed("x", |at| (8_000..16_000).contains(&at));
        begins(&again_right, "from 0:00:01.000 (sample 8000) to 0:00:01.999 (sample 15999); at the first of these samples", "8000");
        let now_and_then = samples::disturbed("x", |at| at % 8000 < 400);
        begins(&now_and_then, "now and then, from 0:00:00.000 (sample 0) on; at the first of these samples", "4000");
    }

    #[test]
    fn a_silent_track_that_agrees_is_told() {
        let said = sentence(&samples::silent("x"), Start(None));
        assert_eq!(said, "80000 samples (0:00:10.000), all as the chip sends them; it is silent all the time");
    }
}
