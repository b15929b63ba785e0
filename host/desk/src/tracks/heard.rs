//! What is to be said of each source on a track: right, not there, in the place of another, too loud.

use crate::sound::levels;
use crate::tracks::findings::Findings;
use crate::tracks::fit::{Share, Shares};

/// A gain below this is as good as none.
pub const NONE: f64 = 0.004;

/// A source that is not asked for is on the track from this gain on.
const HEARD: f64 = 5.0 * NONE;

/// What is left over without the sources is worth a word if it is more than this part of the whole.
const LEFT_OVER: f64 = 0.3;

#[derive(Clone, Copy, Debug, PartialEq)]
pub enum Heard {
    /// Silent, or not to be told from the others.
    Untold,
    Right,
    /// Asked for, and not on the track.
    Absent,
    /// On the track, and not asked for.
    Uninvited,
    /// Each of the two has the gain of the other.
    ExchangedWith(usize),
    /// Not on the track; this one, which is not asked for, is.
    ReplacedBy(usize),
    /// Not asked for, and on the track where others are not.
    InPlace,
    /// So much louder than asked for, and perhaps with the other sign.
    Level {
        decibels: f64,
        turned: bool,
    },
}

/// Whether two gains are the same for the ear.
pub fn near(one: f64, other: f64) -> bool {
    (one - other).abs() <= 0.02 + 0.1 * other.abs()
}

/// One for each source.
pub fn judged(shares: &Shares) -> Vec<Heard> {
    let mut heard: Vec<Heard> = shares.sources.iter().map(alone).collect();
    for one in 0..heard.len() {
        for other in one + 1..heard.len() {
            pair(shares, &mut heard, one, other);
        }
    }
    replace(&mut heard);
    heard
}

/// A source without a look at the others.
fn alone(share: &Option<Share>) -> Heard {
    let Some(Share { asked, found, .. }) = *share else { return Heard::Untold };
    let (is_asked, is_found) = (asked.abs() > NONE, found.abs() >= 0.1 * asked.abs());
    match (is_asked, is_found) {
        (false, _) if found.abs() > HEARD => Heard::Uninvited,
        (true, false) => Heard::Absent,
        (true, true) if !near(found, asked) => Heard::Level { decibels: levels::decibels(found / asked), turned: found * asked < 0.0 },
        _ => Heard::Right,
    }
}

fn is_wrong(heard: Heard) -> bool {
    matches!(heard, Heard::Absent | Heard::Uninvited | Heard::Level { .. })
}

/// Two that are wrong by themselves and, together, each as the other should be.
fn pair(shares: &Shares, heard: &mut [Heard], one: usize, other: usize) {
    let (Some(first), Some(second)) = (shares.sources[one], shares.sources[other]) else { return };
    if !(is_wrong(heard[one]) && is_wrong(heard[other]) && near(first.found, second.asked) && near(second.found, first.asked)) {
        return;
    }
    (heard[one], heard[other]) = match (heard[one], heard[other]) {
        (Heard::Absent, Heard::Uninvited) => (Heard::ReplacedBy(other), Heard::InPlace),
        (Heard::Uninvited, Heard::Absent) => (Heard::InPlace, Heard::ReplacedBy(one)),
        _ => (Heard::ExchangedWith(other), Heard::ExchangedWith(one)),
    };
}

/// One that is there uninvited stands for all that are absent.
fn replace(heard: &mut [Heard]) {
    let uninvited: Vec<usize> = (0..heard.len()).filter(|at| heard[*at] == Heard::Uninvited).collect();
    let ([one], true) = (uninvited.as_slice(), heard.contains(&Heard::Absent)) else { return };
    heard[*one] = Heard::InPlace;
    heard.iter_mut().filter(|heard| **heard == Heard::Absent).for_each(|heard| *heard = Heard::ReplacedBy(*one));
}

/// What the table says of one source.
pub fn remark(findings: &Findings, heard: &[Heard], at: usize) -> String {
    match heard[at] {
        Heard::Untold => "silent, or not to be told from the others".to_string(),
        Heard::Right => "right".to_string(),
        Heard::Absent => "not on the track".to_string(),
        Heard::Uninvited => "should not be on it".to_string(),
        Heard::ExchangedWith(other) => format!("exchanged with {}", findings.source_name(other)),
        Heard::ReplacedBy(other) => format!("not on the track: {} is in its place", findings.source_name(other)),
        Heard::InPlace => format!("should not be on it: in place of {}", listed(&replaced_by(findings, heard, at))),
        Heard::Level { decibels, turned } => level(decibels, turned),
    }
}

fn level(decibels: f64, turned: bool) -> String {
    let amount = format!("{:.1} dB", decibels.abs());
    match (amount.as_str(), turned) {
        ("0.0 dB", _) => "turned over: each sample has the other sign".to_string(),
        (_, false) => format!("{amount} too {}", if decibels > 0.0 { "loud" } else { "soft" }),
        (_, true) => format!("{amount} too {}, and turned over", if decibels > 0.0 { "loud" } else { "soft" }),
    }
}

/// The names of those whose place a source has taken.
fn replaced_by(findings: &Findings, heard: &[Heard], by: usize) -> Vec<String> {
    those(findings, heard, |heard| heard == Heard::ReplacedBy(by))
}

fn those(findings: &Findings, heard: &[Heard], holds: impl Fn(Heard) -> bool) -> Vec<String> {
    (0..heard.len()).filter(|at| holds(heard[*at])).map(|at| findings.source_name(at)).collect()
}

/// What is on the track in place of what, for a sentence; none where nothing can be told of the sources.
pub fn summary(findings: &Findings, shares: &Shares) -> Option<Summary> {
    let heard = judged(shares);
    if shares.level < 1.0 {
        return Some(Summary::Wrong("the track is silent there".to_string()));
    }
    if heard.iter().all(|heard| *heard == Heard::Untold) {
        return None;
    }
    let mut said = pairs(findings, &heard);
    said.extend(is_or_are(&those(findings, &heard, |heard| heard == Heard::Absent), "not on it"));
    said.extend(is_or_are(&those(findings, &heard, |heard| heard == Heard::Uninvited), "on it and should not be"));
    if said.is_empty() {
        said.extend(levels_of(findings, &heard));
    }
    if left_over(shares) {
        said.push("something that is none of the sources is on it".to_string());
    }
    Some(if said.is_empty() { Summary::Right } else { Summary::Wrong(said.join(", ")) })
}

#[derive(Clone, Debug, PartialEq, Eq)]
pub enum Summary {
    /// The sources on the track are the right ones, at the right levels.
    Right,
    Wrong(String),
}

/// Whether something is on the track that is none of the sources.
pub fn left_over(shares: &Shares) -> bool {
    shares.level >= 1.0 && shares.rest > LEFT_OVER * shares.level
}

fn pairs(findings: &Findings, heard: &[Heard]) -> Vec<String> {
    let said = heard.iter().enumerate().filter_map(|(at, one)| match *one {
        Heard::ExchangedWith(other) if other > at => {
            Some(format!("{} and {} are exchanged", findings.source_name(at), findings.source_name(other)))
        }
        Heard::InPlace => Some(format!("{} is on it in place of {}", findings.source_name(at), listed(&replaced_by(findings, heard, at)))),
        _ => None,
    });
    said.collect()
}

fn levels_of(findings: &Findings, heard: &[Heard]) -> Vec<String> {
    let said = heard.iter().enumerate().filter_map(|(at, one)| match *one {
        Heard::Level { decibels, turned } => Some(format!("{} is {}", findings.source_name(at), level(decibels, turned))),
        _ => None,
    });
    said.collect()
}

fn is_or_are(names: &[String], what: &str) -> Option<String> {
    let verb = if names.len() == 1 { "is" } else { "are" };
    (!names.is_empty()).then(|| format!("{} {verb} {what}", listed(names)))
}

fn listed(names: &[String]) -> String {
    match names {
        [] => String::new(),
        [one] => one.clone(),
        [most @ .., last] => format!("{} and {last}", most.join(", ")),
    }
}

#[cfg(test)]
mod tests {
    use super::*;

    fn shares(gains: &[(f64, f64)]) -> Shares {
        let sources = gains.iter().map(|(asked, found)| Some(Share { asked: *asked, found: *found, level: 1000.0 }));
        Shares { sources: sources.collect(), level: 500.0, rest: 1.0 }
    }

    fn of(names: &[&str]) -> Findings {
        let mut findings = Findings::new("x");
        findings.sources = names.iter().map(|name| name.to_string()).collect();
        findings
    }

    fn said(gains: &[(f64, f64)]) -> Option<Summary> {
        summary(&of(&["booth", "floor", "relay", "room"]), &shares(gains))
    }

    fn wrong(text: &str) -> Option<Summary> {
        Some(Summary::Wrong(text.to_string()))
    }

    #[test]
    fn two_sources_with_each_others_gains_are_exchanged() {
        let gains = [(0.5, 0.25), (0.25, 0.5), (0.355, 0.355)];
        assert_eq!(judged(&shares(&gains)), [Heard::ExchangedWith(1), Heard::ExchangedWith(0), Heard::Right]);
        assert_eq!(said(&gains), wrong("booth and floor are exchanged"));
    }

    #[test]
    fn one_that_is_not_asked_for_is_in_place_of_those_that_are_absent() {
        let gains = [(0.5, 0.0), (0.0, 0.0), (0.0, 0.001), (0.0, 0.5)];
        assert_eq!(judged(&shares(&gains)), [Heard::ReplacedBy(3), Heard::Right, Heard::Right, Heard::InPlace]);
        assert_eq!(said(&gains), wrong("room is on it in place of booth"));
        let gains = [(0.5, 0.001), (0.25, 0.0), (0.355, 0.0), (0.0, 1.1)];
        assert_eq!(said(&gains), wrong("room is on it in place of booth, floor and relay"));
        let heard = judged(&shares(&gains));
        let findings = of(&["booth", "floor", "relay", "room"]);
        assert_eq!(remark(&findings, &heard, 0), "not on the track: room is in its place");
        assert_eq!(remark(&findings, &heard, 3), "should not be on it: in place of booth, floor and relay");
    }

    #[test]
    fn levels_are_told_where_nothing_worse_is() {
        assert_eq!(said(&[(0.25, 0.5), (0.25, 0.25)]), wrong("booth is 6.0 dB too loud"));
        assert_eq!(said(&[(0.5, 0.25), (0.25, 0.25)]), wrong("booth is 6.0 dB too soft"));
        assert_eq!(said(&[(0.5, -0.5)]), wrong("booth is turned over: each sample has the other sign"));
        assert_eq!(said(&[(0.5, 0.0), (0.25, 0.25)]), wrong("booth is not on it"));
        assert_eq!(said(&[(0.5, 0.5), (0.0, 0.25)]), wrong("floor is on it and should not be"));
        assert_eq!(said(&[(0.5, 0.5), (0.25, 0.25)]), Some(Summary::Right));
    }

    #[test]
    fn silence_and_what_is_left_over_are_told() {
        assert_eq!(summary(&of(&[]), &Shares { sources: vec![None], level: 0.0, rest: 0.0 }), wrong("the track is silent there"));
        assert_eq!(summary(&of(&[]), &Shares { sources: vec![None], level: 5.0, rest: 5.0 }), None);
        assert_eq!(summary(&of(&[]), &Shares { sources: vec![], level: 5.0, rest: 5.0 }), None);
        let other = Shares { rest: 400.0, ..shares(&[(0.5, 0.5)]) };
        assert_eq!(summary(&of(&[]), &other), wrong("something that is none of the sources is on it"));
    }
}
