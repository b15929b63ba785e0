//! Texts of nothing but zeros in records of 128 bytes, their check bytes added up by hand.

use crate::lent::{data_outcome, program_outcome};

pub const END: &str = ":00000001FF";

/// What stands before and after the 256 zeros of each record.
const AROUND_ZEROS: [(&str, &str); 16] = [
    (":80000000", "80"),
    (":80008000", "00"),
    (":80010000", "7F"),
    (":80018000", "FF"),
    (":80020000", "7E"),
    (":80028000", "FE"),
    (":80030000", "7D"),
    (":80038000", "FD"),
    (":80040000", "7C"),
    (":80048000", "FC"),
    (":80050000", "7B"),
    (":80058000", "FB"),
    (":80060000", "7A"),
    (":80068000", "FA"),
    (":80070000", "79"),
    (":80078000", "F9"),
];

/// A data ROM in 8 lines, and the end record in the ninth.
pub fn data() -> Vec<String> {
    lines(8)
}

/// A program in 16 lines, and the end record in the seventeenth.
pub fn program() -> Vec<String> {
    lines(16)
}

/// The data ROM with another line instead of line `number`, counted from 1.
pub fn data_with(number: usize, line: &str) -> Vec<u8> {
    let mut lines = data();
    lines[number - 1] = line.to_string();
    text(&lines)
}

/// The data ROM with one line more, which becomes line `number`.
pub fn data_and(number: usize, line: &str) -> Vec<u8> {
    let mut lines = data();
    lines.insert(number - 1, line.to_string());
    text(&lines)
}

/// The data ROM without line `number`.
pub fn data_without(number: usize) -> Vec<u8> {
    let mut lines = data();
    lines.remove(number - 1);
    text(&lines)
}

/// The lines, each with a line feed.
pub fn text(lines: &[String]) -> Vec<u8> {
    lines.iter().flat_map(|line| [line.as_str(), "\n"]).collect::<String>().into_bytes()
}

fn lines(records: usize) -> Vec<String> {
    let zeros = "0".repeat(256);
    let records = AROUND_ZEROS[..records].iter().map(|(before, after)| format!("{before}{zeros}{after}"));
    records.chain([END.to_string()]).collect()
}

/// 0 comes with "the line of the end record".
#[test]
fn both_are_accepted() {
    assert_eq!(data_outcome(&text(&data())), (0, 9));
    assert_eq!(program_outcome(&text(&program())), (0, 17));
}
