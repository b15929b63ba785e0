//! A text that was refused, in words. Number and line are the proved loader's; the text is looked at again only to say more.

mod record;
mod text;

use super::Image;
use crate::chip::device::Device;
use crate::chip::event::refusal;
use crate::fault::{self, Fault, Place, Spot};
use bemulatsho::Loading;
use std::path::Path;

/// What in particular is wrong, and in which column where it has one.
#[derive(Debug, PartialEq, Eq)]
struct Reason {
    column: Option<usize>,
    why: String,
}

/// Most characters of a line that are shown.
const SHOWN: usize = 60;

pub fn fault(image: Image, file: &Path, text: &[u8], Loading { number, line }: Loading) -> Fault {
    let decided = line.checked_sub(1).and_then(|before| lines(text).nth(before));
    let reason = match (number, decided) {
        (12, Some(decided)) => record::character_or_length(decided),
        (13, Some(decided)) => record::check_byte(decided),
        (14, Some(decided)) => record::kind(decided),
        (15, _) => text::addresses(image, text, line),
        (16, _) => text::end(text, line),
        _ => None,
    };
    let spot = match (decided, reason.as_ref().and_then(|reason| reason.column)) {
        (None, _) => Spot::WholeFile,
        (Some(_), None) => Spot::WholeLine(line as u64),
        (Some(_), Some(column)) => Spot::Line { line: line as u64, column },
    };
    let parts = [Some(refusal(Device::Upd77p20, number)), reason.map(|reason| reason.why), decided.map(shown)];
    Fault::bad_at(Place { file: fault::named(file), spot }, parts.into_iter().flatten().collect::<Vec<String>>().join(": "))
}

/// The lines of a text, each with its ending.
fn lines(text: &[u8]) -> impl Iterator<Item = &[u8]> {
    text.split_inclusive(|byte| *byte == b'\n')
}

/// A line without its ending.
fn without_ending(line: &[u8]) -> &[u8] {
    match line {
        [line @ .., b'\r', b'\n'] | [line @ .., b'\n'] => line,
        line => line,
    }
}

/// A line as it stands, its beginning if it is long.
fn shown(line: &[u8]) -> String {
    let line = String::from_utf8_lossy(without_ending(line));
    let beginning: String = line.chars().take(SHOWN).collect();
    let goes_on = if beginning.len() < line.len() { " .." } else { "" };
    format!("{beginning:?}{goes_on}")
}

#[cfg(test)]
mod tests {
    use super::*;

    const TEXTS: [&[u8]; 7] = [b"", b"\n", b":", b":00000001FF\n", b":0100000005FA\n:00000001FF\n\n", b"\xff\xfe\r\n:\r", b":FF00000102"];

    fn told(text: &[u8], number: u8, line: usize) -> String {
        fault(Image::Data, Path::new("x"), text, Loading { number, line }).to_string()
    }

    #[test]
    fn number_and_meaning_stand_alone_where_no_reason_is_found() {
        let end = TEXTS[3];
        assert_eq!(told(end, 12, 1), "x:1: refusal 12, bad character or length: \":00000001FF\"");
        assert_eq!(told(end, 13, 1), "x:1: refusal 13, bad check byte: \":00000001FF\"");
        assert_eq!(told(end, 14, 1), "x:1: refusal 14, record type: \":00000001FF\"");
        assert_eq!(told(end, 16, 1), "x:1: refusal 16, no end record or text after it: \":00000001FF\"");
        assert_eq!(told(end, 1, 0), "x: refusal 1, a lent image or RAM has the wrong length");
    }

    /// Whatever is said of whatever text: the number is told, and the line if there is one.
    #[test]
    fn any_number_and_line_are_told() {
        for text in TEXTS {
            for (number, line) in (0..=u8::MAX).flat_map(|number| [0, 1, 2, 3, 4, usize::MAX].map(|line| (number, line))) {
                let told = told(text, number, line);
                assert!(told.contains(&format!("refusal {number}, ")), "{told}");
                assert_eq!(told.starts_with(&format!("x:{line}:")), (1..=lines(text).count()).contains(&line), "{told}");
            }
        }
    }
}
