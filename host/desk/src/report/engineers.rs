//! What engineers need of a track: the place in the record, what failed, and the words among which the first wrong one is.

use crate::chip::state;
use crate::report::facts::list;
use crate::report::{escape, times};
use crate::tracks::findings::{Findings, Stretch};
use crate::tracks::verdict::Verdict;

/// Nothing where there is nothing to say.
pub fn part(findings: &Findings) -> String {
    let mut facts = Vec::new();
    if let Some(place) = findings.first.as_ref().and_then(|first| first.place) {
        facts.push(("Place in the record", place.to_string()));
    }
    facts.extend(findings.failed.iter().map(|fault| ("Failed expectation", fault.to_string())));
    facts.extend(findings.unreadable.iter().map(|fault| ("Cannot be read", fault.to_string())));
    if Verdict::of(findings) != Verdict::Agrees && !findings.files.is_empty() {
        let files: Vec<String> = findings.files.iter().map(|file| file.display().to_string()).collect();
        facts.push(("Files", files.join(", ")));
    }
    let content = format!("{}{}", list("facts", &facts), findings.stretch.as_ref().map_or_else(String::new, stretch));
    match content.is_empty() {
        true => String::new(),
        false => format!("<details open class=\"engineers\">\n<summary>For engineers</summary>\n{content}</details>\n"),
    }
}

fn stretch(stretch: &Stretch) -> String {
    let registers = state::show(&stretch.before, &stretch.before);
    let mut text = format!("<p>Registers and RAM before these words:</p>\n{}", preformatted(&registers));
    text.push_str(&format!("<p>{}</p>\n", words(stretch)));
    if !stretch.lines.is_empty() {
        text.push_str(&preformatted(&stretch.lines.join("\n")));
    }
    text
}

fn words(stretch: &Stretch) -> String {
    let which = match stretch.words {
        0 => return "No word ran between the last judgement that held and the first that did not:".to_string(),
        1 => "The first word that went another way is this".to_string(),
        words => format!("The first word that went another way is one of these {}", times::grouped(words)),
    };
    match stretch.words > stretch.lines.len() as u64 {
        true => format!("{which}, of which the first are shown:"),
        false => format!("{which}:"),
    }
}

/// A line break after the tag, which HTML drops, keeps one that the text may begin with.
fn preformatted(text: &str) -> String {
    format!("<pre>\n{}</pre>\n", escape::text(text.trim_end()))
}

#[cfg(test)]
mod tests {
    use super::*;
    use crate::fault::Fault;
    use crate::tracks::samples;

    #[test]
    fn the_words_in_question_are_shown_with_the_registers_before_them() {
        let part = part(&samples::trial("x"));
        assert!(part.contains("evening/x.record&#58;5&#58;1") && part.contains("PC 00DH"), "{part}");
        assert!(part.contains("one of these 24, of which the first are shown") && part.contains("MOV @TR,MEM M1"), "{part}");
        assert!(!part.contains('*'), "{part}");
    }

    #[test]
    fn the_files_of_a_track_that_does_not_agree_are_named() {
        let files = || vec!["evening/mixing.desk".into(), "evening/3.wav".into()];
        let (mut wrong, mut right) = (samples::flipped("x", 5), samples::right("x"));
        (wrong.files, right.files) = (files(), files());
        assert!(part(&wrong).contains("<dt>Files</dt><dd>evening/mixing.desk, evening/3.wav</dd>"));
        assert_eq!(part(&right), "");
    }

    #[test]
    fn one_word_is_the_word() {
        let mut findings = samples::trial("x");
        if let Some(stretch) = findings.stretch.as_mut() {
            stretch.words = 1;
        }
        assert!(part(&findings).contains("The first word that went another way is this:"));
    }

    #[test]
    fn a_track_without_anything_for_engineers_has_no_such_part() {
        assert_eq!(part(&samples::right("x")), "");
        let mut findings = samples::right("x");
        findings.failed = Some(Fault::failed("expected A 0000H"));
        assert!(part(&findings).contains("expected A 0000H"));
    }
}
