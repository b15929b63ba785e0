//! The preset of nothing but zeros in the writer's form, its check bytes added up by hand.

use super::ram;

/// What stands before and after the 32 zeros of each record.
const AROUND_ZEROS: [(&str, &str); 16] = [
    (":10000000", "F0"),
    (":10001000", "E0"),
    (":10002000", "D0"),
    (":10003000", "C0"),
    (":10004000", "B0"),
    (":10005000", "A0"),
    (":10006000", "90"),
    (":10007000", "80"),
    (":10008000", "70"),
    (":10009000", "60"),
    (":1000A000", "50"),
    (":1000B000", "40"),
    (":1000C000", "30"),
    (":1000D000", "20"),
    (":1000E000", "10"),
    (":1000F000", "00"),
];

/// The records in 16 lines, and the end record in the seventeenth.
pub fn lines() -> Vec<String> {
    let records = AROUND_ZEROS.iter().map(|(before, after)| format!("{before}{}{after}", "0".repeat(32)));
    records.chain([":00000001FF".to_string()]).collect()
}

pub fn text() -> Vec<u8> {
    crate::zeros::text(&lines())
}

/// The preset with another line instead of line `number`, counted from 1.
pub fn with(number: usize, line: &str) -> Vec<u8> {
    let mut lines = lines();
    lines[number - 1] = line.to_string();
    crate::zeros::text(&lines)
}

/// The preset with one line more, which becomes line `number`.
pub fn and(number: usize, line: &str) -> Vec<u8> {
    let mut lines = lines();
    lines.insert(number - 1, line.to_string());
    crate::zeros::text(&lines)
}

/// The preset without line `number`.
pub fn without(number: usize) -> Vec<u8> {
    let mut lines = lines();
    lines.remove(number - 1);
    crate::zeros::text(&lines)
}

/// 0 comes with "the line of the end record".
#[test]
fn they_are_accepted() {
    assert_eq!(ram::outcome(&text()), (0, 17));
    assert_eq!(ram::loaded(&text()), [0; 128]);
}
