//! `desk preset check`: says of each file whether it is a whole preset, and whether it is written as `desk` would write it.

use super::file;
use crate::commands::checked_files::{self, Judged};
use crate::commands::tally::Subject;
use crate::fault::Fault;
use crate::images::preset;
use std::path::Path;

const USE: &str = "expected `desk preset check FILE..`, where one of them may be - for standard input";

const PRESETS: Subject = Subject { name: "preset", is_not_good: "is not good", are_not_good: "are not good" };

const VERDICTS: [&str; 3] = ["good", "refused", "unreadable"];

pub fn command(arguments: &[String]) -> Result<(), Fault> {
    checked_files::each(USE, arguments, PRESETS, VERDICTS, check)
}

fn check(file: &Path, text: &[u8]) -> Result<Judged, Fault> {
    let [good, refused, _] = VERDICTS;
    let ram = match preset::load(file, text) {
        Ok(ram) => ram,
        Err(fault) => return Ok(Judged::told(refused, fault)),
    };
    let otherwise = match first_other_line(text, preset::written(&ram)?.as_bytes()) {
        Some(line) => format!("; desk would write it otherwise, from line {line} on"),
        None => String::new(),
    };
    Ok(Judged::told(good, format!("{} cells, {} not 0{otherwise}", ram.len(), file::used(&ram))))
}

/// The first line, counted from 1, in which two texts differ.
fn first_other_line(text: &[u8], other: &[u8]) -> Option<usize> {
    let lines = |text| <[u8]>::split_inclusive(text, |byte| *byte == b'\n');
    let same = lines(text).zip(lines(other)).take_while(|(line, other)| line == other).count();
    (text != other).then_some(same + 1)
}

#[cfg(test)]
mod tests {
    use super::*;

    #[test]
    fn the_first_other_line_is_found() {
        let other = b"a\nb\nc\n";
        for (text, line) in [
            (&b"a\nb\nc\n"[..], None),
            (b"A\nb\nc\n", Some(1)),
            (b"a\r\nb\nc\n", Some(1)),
            (b"a\nc\nb\n", Some(2)),
            (b"a\nb\nc", Some(3)),
            (b"a\nb\n", Some(3)),
            (b"a\nb\nc\nd\n", Some(4)),
        ] {
            assert_eq!(first_other_line(text, other), line, "{}", text.escape_ascii());
        }
    }
}
