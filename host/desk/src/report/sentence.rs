//! One sentence about a track for the coordinator: wrong since when, and what is on it instead.

use crate::report::times;
use crate::tracks::extent::Extent;
use crate::tracks::findings::Findings;
use crate::tracks::heard::{self, Summary};
use crate::tracks::time::{self, Start};
use crate::tracks::verdict::Verdict;

pub fn sentence(findings: &Findings, start: Start) -> String {
    match Verdict::of(findings) {
        Verdict::Agrees => agrees(findings),
        Verdict::Differs => {
            format!("{}{}", wrong(findings, start), part(findings, start).map_or_else(String::new, |part| format!(" {part}")))
        }
        Verdict::Incomplete => format!("{}{}", part(findings, start).unwrap_or_default(), right_so_far(findings)),
        Verdict::Unreadable => unreadable(findings, start),
    }
}

fn agrees(findings: &Findings) -> String {
    let silent = if findings.is_silent() { " It is silent all the time." } else { "" };
    match findings.samples {
        0 => "No sample was sent.".to_string(),
        1 => format!("Its one sample is as the chip sends it.{silent}"),
        samples => format!("As the chip sends it, all of its {}.{silent}", times::length(samples, findings.rate)),
    }
}

fn right_so_far(findings: &Findings) -> &'static str {
    match findings.samples {
        0 => "",
        _ => " So far it is as the chip sends it.",
    }
}

fn wrong(findings: &Findings, start: Start) -> String {
    let Some(first) = &findings.first else {
        return match findings.samples {
            0 => "Something is not as the chip does it, and no sample could be compared: see its own part below.".to_string(),
            _ => "The samples are right, but something else is not as the chip does it: see its own part below.".to_string(),
        };
    };
    match Extent::of(findings, first.sample) {
        Extent::One => format!("One sample is wrong{}.", at(findings, first.sample, start)),
        Extent::Scattered => {
            let (from, to) = (time::at(first.sample, findings.rate, start), time::at(findings.last, findings.rate, start));
            format!("{} are wrong, the first: {from}, the last: {to}.", times::counted(findings.differing, "sample"))
        }
        Extent::Stretch { lasts, now_and_then } => {
            let now_and_then = if now_and_then { "now and then, " } else { "" };
            format!("Wrong {now_and_then}{}{}.", when(findings, first.sample, lasts, start), instead(findings))
        }
    }
}

/// A time behind a comma, or a sample behind a colon.
fn at(findings: &Findings, sample: u64, start: Start) -> String {
    let when = time::at(sample, findings.rate, start);
    match findings.rate {
        Some(_) => format!(", at {when}"),
        None => format!(": {when}"),
    }
}

fn when(findings: &Findings, first: u64, lasts: bool, start: Start) -> String {
    let about = |sample| times::about(findings, sample, start);
    match (first, lasts) {
        (0, true) => "from beginning to end".to_string(),
        (0, false) => format!("from the beginning to {}", about(findings.last)),
        (from, true) => format!("from {} on", about(from)),
        (from, false) => format!("from {} to {}", about(from), about(findings.last)),
    }
}

/// What is on the track instead, behind a colon.
fn instead(findings: &Findings) -> String {
    let shares = findings.shares_where_it_differs();
    match shares.and_then(|shares| heard::summary(findings, &shares)) {
        Some(Summary::Wrong(what)) => format!(": {what}"),
        Some(Summary::Right) => ", though the right sources are on it".to_string(),
        None => String::new(),
    }
}

/// How much of a track could be compared that is not all there. Its sources may be what ends too early.
fn part(findings: &Findings, start: Start) -> Option<String> {
    let missing = stopped(findings.missing.as_ref()?);
    let there = times::length(findings.samples, findings.rate);
    let until = match (start.0, findings.rate) {
        (Some(_), Some(_)) => format!(", until {}", times::about(findings, findings.samples, start)),
        _ => String::new(),
    };
    Some(match findings.length {
        _ if findings.samples == 0 => format!("Nothing of it could be checked: {missing}"),
        Some(length) if length > findings.samples => {
            format!("Only {there} of {} could be checked{until}.", times::length(length, findings.rate))
        }
        Some(_) => format!("Not all of it is there: {missing}"),
        None => format!("Only {there} could be checked{until}: the rest is missing."),
    })
}

fn unreadable(findings: &Findings, start: Start) -> String {
    let why = findings.unreadable.as_ref().map_or_else(String::new, |fault| stopped(&fault.message));
    if findings.samples == 0 {
        return format!("Cannot be read: {why}");
    }
    let before = match findings.first {
        Some(_) => format!(" {}", wrong(findings, start)),
        None => right_so_far(findings).to_string(),
    };
    format!("Cannot be read after {}: {why}{before}", times::length(findings.samples, findings.rate))
}

/// A message with a full stop.
fn stopped(message: &str) -> String {
    match message.ends_with(['.', '!', '?']) {
        true => message.to_string(),
        false => format!("{message}."),
    }
}

#[cfg(test)]
mod tests {
    use super::*;
    use crate::fault::Fault;
    use crate::tracks::samples;

    fn said(findings: &Findings) -> String {
        sentence(findings, Start(None))
    }

    #[test]
    fn a_track_that_agrees() {
        assert_eq!(said(&samples::right("x")), "As the chip sends it, all of its 0:00:10.");
        assert_eq!(said(&samples::silent("x")), "As the chip sends it, all of its 0:00:10. It is silent all the time.");
        assert_eq!(said(&Findings::new("x")), "No sample was sent.");
        let mut without_rate = samples::right("x");
        without_rate.rate = None;
        assert_eq!(said(&without_rate), "As the chip sends it, all of its 80\u{202f}000 samples.");
    }

    #[test]
    fn a_track_with_one_wrong_sample() {
        assert_eq!(said(&samples::flipped("x", 40_000)), "One sample is wrong, at 0:00:05.000.");
        let mut without_rate = samples::flipped("x", 40_000);
        without_rate.rate = None;
        assert_eq!(said(&without_rate), "One sample is wrong: sample 40000.");
    }

    #[test]
    fn a_track_with_wrong_sources() {
        assert_eq!(said(&samples::exchanged("x", 42_000)), "Wrong from 0:00:05.25 on: booth and floor are exchanged.");
        let evening = sentence(&samples::exchanged("x", 42_000), Start::parse("19:00").unwrap());
        assert_eq!(evening, "Wrong from 19:00:05.25 on: booth and floor are exchanged.");
        assert_eq!(said(&samples::trial("x")), "Wrong from beginning to end: room is on it in place of booth, floor and relay.");
    }

    #[test]
    fn a_track_that_is_right_again() {
        let findings = samples::disturbed("x", |at| (8_000..16_000).contains(&at));
        assert_eq!(said(&findings), "Wrong from 0:00:01 to 0:00:01.999, though the right sources are on it.");
        let findings = samples::disturbed("x", |at| at % 8000 < 400);
        assert_eq!(said(&findings), "Wrong now and then, from beginning to end, though the right sources are on it.");
        let findings = samples::disturbed("x", |at| at == 8000 || at == 16_000);
        assert_eq!(said(&findings), "2 samples are wrong, the first: 0:00:01.000, the last: 0:00:02.000.");
    }

    #[test]
    fn a_track_that_is_not_all_there() {
        let mut cut = samples::cut("x", 39_999);
        assert_eq!(said(&cut), "Only 0:00:04.999 of 0:00:10 could be checked. So far it is as the chip sends it.");
        let evening = sentence(&cut, Start::parse("19:00").unwrap());
        assert!(evening.starts_with("Only 0:00:04.999 of 0:00:10 could be checked, until 19:00:04.999."), "{evening}");
        cut.length = None;
        assert_eq!(said(&cut), "Only 0:00:04.999 could be checked: the rest is missing. So far it is as the chip sends it.");
        assert_eq!(said(&samples::cut("x", 0)), "Nothing of it could be checked: the record ends.");
        let mut wrong_and_cut = samples::flipped("x", 40_000);
        (wrong_and_cut.missing, wrong_and_cut.length) = (Some("the record ends".to_string()), Some(160_000));
        assert_eq!(said(&wrong_and_cut), "One sample is wrong, at 0:00:05.000. Only 0:00:10 of 0:00:20 could be checked.");
    }

    #[test]
    fn a_track_that_cannot_be_read() {
        let mut findings = Findings::new("x");
        findings.unreadable = Some(Fault::bad("no sound file"));
        assert_eq!(said(&findings), "Cannot be read: no sound file.");
        let mut findings = samples::right("x");
        findings.unreadable = Some(Fault::bad("no number"));
        assert_eq!(said(&findings), "Cannot be read after 0:00:10: no number. So far it is as the chip sends it.");
    }

    #[test]
    fn a_track_whose_samples_are_right_and_whose_record_is_not() {
        let mut findings = samples::right("x");
        findings.failed = Some(Fault::failed("expected A 0000H"));
        assert_eq!(said(&findings), "The samples are right, but something else is not as the chip does it: see its own part below.");
    }
}
