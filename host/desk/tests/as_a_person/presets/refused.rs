//! Damaged presets: each refusal with its line, its number and what is wrong there; and none is taken for whole.

use super::{cells, preset, ADDRESS};
use crate::folder::{Folder, Ran};
use crate::images::{record, with_line};
use desk::fault::{Fault, Spot};
use desk::images::preset::load;
use std::path::Path;

/// What is said of a damaged preset by each command that reads one.
#[track_caller]
fn is_refused(text: impl AsRef<[u8]>, why: &str) {
    let folder = Folder::new().with("x.hex", text).with("p.hex", preset(&cells()));
    let printed = format!("x.hex: refused: x.hex{why}\n1 preset: good 0, refused 1, unreadable 0\n");
    assert_eq!(folder.desk("preset check x.hex"), Ran::new(1, printed, "desk: the preset is not good\n"));
    for line in ["preset show x.hex", "preset diff x.hex p.hex", "preset diff p.hex x.hex"] {
        folder.desk(line).is_refused(2, &format!("x.hex{why}"));
    }
}

/// The text with a character of its third line altered, and that line.
fn altered(column: usize, character: &str) -> (String, String) {
    let text = preset(&cells());
    let mut line = text.lines().nth(2).expect("a third line").to_string();
    line.replace_range(column - 1..column, character);
    (with_line(&text, 3, &format!("{line}\n")), format!("{line:?}"))
}

#[test]
fn an_altered_character_is_told_with_its_column() {
    let (text, line) = altered(12, "G");
    is_refused(text, &format!(":3:12: refusal 12, bad character or length: \"G\": expected a hexadecimal digit: {line}"));
    let (text, line) = altered(1, ";");
    is_refused(text, &format!(":3:1: refusal 12, bad character or length: \";\": expected a colon: {line}"));
    let (text, line) = altered(9, "4");
    let ran = Folder::new().with("x.hex", text).desk("preset show x.hex");
    assert!(ran.told.starts_with("desk: x.hex:3:42: refusal 13, bad check byte: ") && ran.told.contains(&line), "{ran:?}");
}

#[test]
fn a_record_of_another_type_is_told() {
    let text = with_line(&preset(&cells()), 1, ":020000040000FA\n");
    is_refused(text, ":1:8: refusal 14, record type: 04 is neither 00 (data) nor 01 (end): \":020000040000FA\"");
}

#[test]
fn a_record_that_is_doubled_missing_or_outside_is_told() {
    let text = preset(&cells());
    let lines: Vec<&str> = text.split_inclusive('\n').collect();
    let shown = |line: usize| format!("{:?}", lines[line - 1].trim_end());
    let doubled = [&lines[..6], &lines[5..]].concat().concat();
    is_refused(doubled, &format!(":7:4: {ADDRESS}: 0050H was given before, in line 6: expected each once: {}", shown(6)));
    let without = [&lines[..5], &lines[6..]].concat().concat();
    let all = "expected 0000H to 00FFH";
    is_refused(without, &format!(":16: {ADDRESS}: 0050H is missing, and 15 more: {all}: \":00000001FF\""));
    let outside = record(0x100, 0, &[7]);
    let with = [&lines[..16], &[outside.as_str()], &lines[16..]].concat().concat();
    is_refused(with, &format!(":17:4: {ADDRESS}: 0100H is outside: {all}: {:?}", outside.trim_end()));
}

#[test]
fn a_text_that_is_cut_doubled_or_empty_is_told() {
    let text = preset(&cells());
    is_refused("", &format!(": {ADDRESS}: the text is empty"));
    let end = "refusal 16, no end record or text after it";
    is_refused(text.clone() + "\n", &format!(":18:1: {end}: the end record is in line 17: expected nothing behind it: \"\""));
    let first = format!("{:?}", text.lines().next().expect("a line"));
    is_refused(text.repeat(2), &format!(":18:1: {end}: the end record is in line 17: expected nothing behind it: {first}"));
    let last = format!("{:?}", text.lines().nth(15).expect("a line"));
    is_refused(&text[..text.len() - 12], &format!(":16: {end}: the last line is no end record: {last}"));
    let why = "refusal 12, bad character or length: the line has no ending: expected a line feed behind it";
    is_refused(&text[..text.len() - 1], &format!(":17:12: {why}: \":00000001FF\""));
}

/// The line and the number of a refusal.
fn place_and_number(fault: &Fault) -> (usize, u8) {
    let line = match fault.place.map(|place| place.spot) {
        Some(Spot::Line { line, .. } | Spot::WholeLine(line)) => line as usize,
        Some(Spot::WholeFile) => 0,
        other => panic!("{other:?}"),
    };
    let number = fault.message.strip_prefix("refusal ").and_then(|rest| rest.split(',').next()).expect("a number");
    (line, number.parse().expect("a number"))
}

/// However it is cut, it is refused in its last line, and never taken for whole.
#[test]
fn a_preset_that_is_cut_anywhere_is_refused() {
    for text in [preset(&cells()), preset(&cells()).replace('\n', "\r\n")] {
        assert_eq!(load(Path::new("whole"), text.as_bytes()), Ok(cells()));
        for end in 0..text.len() {
            let cut = &text[..end];
            let (line, number) = place_and_number(&load(Path::new("cut"), cut.as_bytes()).expect_err(cut));
            let lines = cut.split_inclusive('\n').count();
            let expected = match () {
                () if cut.is_empty() || cut.ends_with('\n') && lines < 16 => 15,
                () if cut.ends_with('\n') => 16,
                () => 12,
            };
            assert_eq!((line, number), (lines, expected), "{cut}");
        }
    }
}

/// Whichever digit is another, the check byte tells it in its line, or what comes before that in the rules.
#[test]
fn a_preset_with_one_digit_altered_is_refused_in_that_line() {
    let text = preset(&cells());
    for at in 0..text.len() {
        let mut altered = text.clone().into_bytes();
        altered[at] = match altered[at] {
            b'0'..=b'8' | b'A'..=b'E' => altered[at] + 1,
            b'9' | b'F' => b'0',
            _ => continue,
        };
        let (line, number) = place_and_number(&load(Path::new("altered"), &altered).expect_err("a refusal"));
        assert_eq!(line, text[..at].matches('\n').count() + 1, "{}", altered.escape_ascii());
        assert!(matches!(number, 12 | 13), "{number}: {}", altered.escape_ascii());
    }
}
