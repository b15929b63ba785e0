//! Files of a command that judges each by its text: a line a file, and a last line that counts them.

use crate::commands::arguments::Arguments;
use crate::commands::image_files::{called, files, text};
use crate::commands::tally::{Subject, Tally};
use crate::fault::Fault;
use crate::output::print_lines;
use std::path::Path;

/// The verdict on a file, what there is to say of it, and lines to print before.
pub struct Judged {
    pub verdict: &'static str,
    pub sentence: String,
    pub lines: Vec<String>,
}

impl Judged {
    pub fn told(verdict: &'static str, sentence: impl ToString) -> Judged {
        Judged { verdict, sentence: sentence.to_string(), lines: Vec::new() }
    }
}

/// Judges one file after another, by its name and its text. The last verdict is of a file that cannot be read.
pub fn each<const VERDICTS: usize>(
    usage: &str,
    arguments: &[String],
    subject: Subject,
    verdicts: [&'static str; VERDICTS],
    judge: impl Fn(&Path, &[u8]) -> Result<Judged, Fault>,
) -> Result<(), Fault> {
    let mut arguments = Arguments::new(usage, arguments);
    let files = files(&mut arguments)?;
    if files.is_empty() {
        return Err(arguments.bad(&format!("no {}", subject.name)));
    }
    let mut tally = Tally::new(subject, verdicts);
    let mut printed = Vec::new();
    for file in files {
        let Judged { verdict, sentence, lines } = match text(file) {
            Ok(text) => judge(called(file), &text)?,
            Err(fault) => Judged::told(verdicts[VERDICTS - 1], fault),
        };
        let name = called(file).display();
        tally.count(verdict);
        printed.extend(lines.iter().map(|line| format!("{name}: {line}")));
        printed.push(format!("{name}: {verdict}: {sentence}"));
    }
    printed.push(tally.to_string());
    tally.ended(print_lines(&printed))
}
