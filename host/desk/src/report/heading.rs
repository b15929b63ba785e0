//! The top of the page: the whole sitting in one sentence.

use crate::report::axis::Sitting;
use crate::report::{escape, times};
use crate::tracks::findings::Findings;
use crate::tracks::verdict::Verdict;

/// A longer table is not seen at a glance: the tracks that do not agree are named above it.
const LONG: usize = 20;

pub fn heading(title: &str, tracks: &[Findings], sitting: &Sitting) -> String {
    let verdicts: Vec<Verdict> = tracks.iter().map(Verdict::of).collect();
    let class = if verdicts.iter().all(|verdict| *verdict == Verdict::Agrees) { "fine" } else { "not-fine" };
    let length = escape::text(&sitting.told());
    let rest = rest(&verdicts).map_or_else(String::new, |rest| format!("{rest} "));
    format!(
        "<header class=\"{class}\">\n<p class=\"title\">{}</p>\n<h1>{}</h1>\n<p class=\"about\">{rest}Length: {length}.</p>\n{}</header>\n",
        escape::name(title),
        sentence(&verdicts),
        named(tracks, &verdicts)
    )
}

fn count(verdicts: &[Verdict], verdict: Verdict) -> usize {
    verdicts.iter().filter(|one| **one == verdict).count()
}

fn sentence(verdicts: &[Verdict]) -> String {
    match verdicts {
        [] => return "No track was checked.".to_string(),
        [one] => return of_one(*one).to_string(),
        _ if count(verdicts, Verdict::Agrees) == verdicts.len() => return format!("All {} tracks agree with the chip.", verdicts.len()),
        _ => {}
    }
    let others = [Verdict::Differs, Verdict::Incomplete, Verdict::Unreadable];
    let counts: Vec<(usize, Verdict)> =
        others.iter().map(|verdict| (count(verdicts, *verdict), *verdict)).filter(|(count, _)| *count > 0).collect();
    let parts = counts.iter().enumerate().map(|(at, (count, verdict))| {
        let tracks = match at {
            0 if *count == verdicts.len() => format!("All {count} tracks"),
            0 => format!("{count} of {} tracks", verdicts.len()),
            _ => count.to_string(),
        };
        format!("{tracks} {}", becomes(*verdict, *count))
    });
    format!("{}.", parts.collect::<Vec<String>>().join(", "))
}

fn of_one(verdict: Verdict) -> &'static str {
    match verdict {
        Verdict::Agrees => "The track agrees with the chip.",
        Verdict::Differs => "The track differs from what the chip sends.",
        Verdict::Incomplete => "The track is incomplete.",
        Verdict::Unreadable => "The track is unreadable.",
    }
}

fn becomes(verdict: Verdict, count: usize) -> String {
    match (verdict, count) {
        (Verdict::Differs, 1) => "differs".to_string(),
        (Verdict::Differs, _) => "differ".to_string(),
        (_, 1) => format!("is {verdict}"),
        (_, _) => format!("are {verdict}"),
    }
}

/// What became of the tracks that the sentence does not speak of.
fn rest(verdicts: &[Verdict]) -> Option<String> {
    match (verdicts.len(), count(verdicts, Verdict::Agrees)) {
        (0 | 1, _) => None,
        (_, 0) => Some("No track agrees with the chip.".to_string()),
        (all, agree) if agree == all => None,
        (_, 1) => Some("The other one agrees with the chip.".to_string()),
        (_, agree) => Some(format!("The other {} agree with the chip.", times::grouped(agree as u64))),
    }
}

/// Where the table is long: the tracks to look at.
fn named(tracks: &[Findings], verdicts: &[Verdict]) -> String {
    if tracks.len() <= LONG || count(verdicts, Verdict::Agrees) == verdicts.len() {
        return String::new();
    }
    let others = (1..).zip(tracks).zip(verdicts).filter(|(_, verdict)| **verdict != Verdict::Agrees);
    let names =
        others.map(|((number, findings), verdict)| format!("<a href=\"#track-{number}\">{}</a> ({verdict})", escape::name(&findings.name)));
    format!("<p class=\"about\">Look at: {}.</p>\n", names.collect::<Vec<String>>().join(", "))
}

#[cfg(test)]
mod tests {
    use super::*;
    use Verdict::{Agrees, Differs, Incomplete, Unreadable};

    #[test]
    fn one_sentence_tells_the_whole_sitting() {
        assert_eq!(sentence(&[Agrees; 12]), "All 12 tracks agree with the chip.");
        assert_eq!(sentence(&[Differs, Agrees, Incomplete, Unreadable]), "1 of 4 tracks differs, 1 is incomplete, 1 is unreadable.");
        assert_eq!(sentence(&[Differs, Differs, Agrees, Incomplete, Incomplete]), "2 of 5 tracks differ, 2 are incomplete.");
        assert_eq!(sentence(&[Agrees, Incomplete]), "1 of 2 tracks is incomplete.");
        assert_eq!(sentence(&[Unreadable, Unreadable]), "All 2 tracks are unreadable.");
        assert_eq!(sentence(&[Differs]), "The track differs from what the chip sends.");
        assert_eq!(sentence(&[]), "No track was checked.");
    }

    #[test]
    fn the_others_are_told_too() {
        assert_eq!(rest(&[Agrees; 12]), None);
        assert_eq!(rest(&[Differs, Agrees, Agrees]).as_deref(), Some("The other 2 agree with the chip."));
        assert_eq!(rest(&[Differs, Agrees]).as_deref(), Some("The other one agrees with the chip."));
        assert_eq!(rest(&[Differs, Incomplete]).as_deref(), Some("No track agrees with the chip."));
    }
}
