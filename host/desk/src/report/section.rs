//! The part of one track: its strip, the differences in words, its sources, and what engineers need.

use crate::chip::event::refusal;
use crate::numbers;
use crate::report::axis::Sitting;
use crate::report::facts::list;
use crate::report::svg::mark;
use crate::report::{engineers, escape, sentence, sources, strip, times};
use crate::sound::levels;
use crate::tracks::findings::{Chip, Findings};
use crate::tracks::time::Start;
use crate::tracks::verdict::Verdict;

/// Of all tracks, those that do not agree first.
pub fn sections(tracks: &[Findings], sitting: &Sitting) -> String {
    let numbered = || (1..).zip(tracks);
    let agrees = |findings: &Findings| Verdict::of(findings) == Verdict::Agrees;
    let others: String =
        numbered().filter(|(_, findings)| !agrees(findings)).map(|(number, findings)| section(number, findings, sitting)).collect();
    let agreeing: String =
        numbered().filter(|(_, findings)| agrees(findings)).map(|(number, findings)| section(number, findings, sitting)).collect();
    format!("{}{}", under("Tracks that do not agree", &others), under("Tracks that agree", &agreeing))
}

fn under(heading: &str, sections: &str) -> String {
    match sections.is_empty() {
        true => String::new(),
        false => format!("<h2>{heading}</h2>\n{sections}"),
    }
}

fn section(number: usize, findings: &Findings, sitting: &Sitting) -> String {
    let verdict = Verdict::of(findings);
    let axis = sitting.own_axis(findings);
    let strip = match findings.whole() {
        0 => String::new(),
        _ => format!("<figure>{}</figure>\n", strip::strip(findings, axis, sitting.start)),
    };
    format!(
        "<section id=\"track-{number}\" class=\"{verdict}\">\n<h3>{}{} <span class=\"word\">{verdict}</span></h3>\n\
         <p class=\"lead\">{}</p>\n{strip}{}{}{}</section>\n",
        mark(verdict),
        escape::name(&findings.name),
        escape::text(&sentence::sentence(findings, sitting.start)),
        facts(findings, sitting.start),
        sources::table(findings, axis),
        engineers::part(findings),
    )
}

/// The differences in words, and whatever else there is to say.
fn facts(findings: &Findings, start: Start) -> String {
    let mut facts = Vec::new();
    if let Some(first) = &findings.first {
        let chip = match first.chip {
            Chip::Sends(word) => format!("the chip sends {}", value(word)),
            Chip::Refuses(number) => format!("the chip sends nothing ({})", refusal(findings.device, number)),
        };
        facts.push((
            "First difference",
            format!("{}: the desk sent {}, {chip}", times::exact(findings, first.sample, start), value(first.sent)),
        ));
        facts.push(("Samples that differ", differing(findings, start)));
        facts.push(("Largest error", largest(findings, start)));
    }
    facts.extend(findings.missing.iter().map(|missing| ("Missing", missing.clone())));
    facts.extend(findings.notes.iter().map(|note| ("Note", note.clone())));
    list("facts", &facts)
}

/// A word that was sent, as a number and as the manual writes it.
fn value(word: u16) -> String {
    let number = (word as i16).to_string().replace('-', "\u{2212}");
    format!("{number} ({})", numbers::register(word))
}

fn differing(findings: &Findings, start: Start) -> String {
    let (differing, samples) = (findings.differing, findings.samples);
    let last = times::exact(findings, findings.last, start);
    format!("{} of {} ({}), the last: {last}", times::grouped(differing), times::grouped(samples), percent(differing, samples))
}

/// Never all where it is not all, nor none where it is some.
fn percent(part: u64, all: u64) -> String {
    let share = 100.0 * part as f64 / all.max(1) as f64;
    match share {
        _ if part == all => "all of them".to_string(),
        _ if share < 0.01 => "less than 0.01 %".to_string(),
        _ if share < 10.0 => format!("{share:.2} %"),
        _ => format!("{:.1} %", share.min(99.9)),
    }
}

fn largest(findings: &Findings, start: Start) -> String {
    let error = findings.largest.error;
    let steps = if error == 1 { "1 step".to_string() } else { format!("{} steps", times::grouped(u64::from(error))) };
    let level = times::decibels(f64::from(error) / levels::FULL_SCALE);
    format!("{steps} of 16 bits (LSB), {level} against full scale, at {}", times::exact(findings, findings.largest.sample, start))
}

#[cfg(test)]
mod tests {
    use super::*;
    use crate::tracks::samples;

    #[test]
    fn the_first_difference_is_told_as_numbers() {
        let facts = facts(&samples::flipped("x", 40_000), Start(None));
        assert!(facts.contains("0&#58;00&#58;05.000 (sample 40000)"), "{facts}");
        assert!(facts.contains("1 of 80\u{202f}000 (less than 0.01 %)"), "{facts}");
        assert!(facts.contains("1 step of 16 bits (LSB), \u{2212}90.3 dB against full scale"), "{facts}");
        assert_eq!(value(0xfff0), "\u{2212}16 (FFF0H)");
    }

    #[test]
    fn a_refusal_is_told() {
        let mut findings = Findings::new("x");
        findings.sample(&[], Chip::Refuses(10), 5, None);
        findings.end();
        let facts = facts(&findings, Start(None));
        assert!(facts.contains("the chip sends nothing (refusal 10, serial out with SORQ 0)"), "{facts}");
    }

    #[test]
    fn a_part_is_never_called_all_or_none() {
        assert_eq!(percent(1, 172_800_000), "less than 0.01 %");
        assert_eq!(percent(172_799_999, 172_800_000), "99.9 %");
        assert_eq!(percent(5, 5), "all of them");
        assert_eq!(percent(1, 3), "33.3 %");
        assert_eq!(percent(1, 50), "2.00 %");
    }

    #[test]
    fn those_that_do_not_agree_come_first_in_the_order_given() {
        let tracks = [samples::right("a"), samples::unreadable("b"), samples::right("c"), samples::flipped("d", 5)];
        let sections = sections(&tracks, &Sitting::of(&tracks, Start(None)));
        let places: Vec<Option<usize>> = [2, 4, 1, 3].iter().map(|number| sections.find(&format!("id=\"track-{number}\""))).collect();
        assert!(places.iter().all(Option::is_some) && places.is_sorted(), "{places:?}");
    }
}
