//! "16 no end record or text after it"

use crate::lent::{data_outcome, program_outcome};
use crate::zeros;

fn data_then(after: &[u8]) -> Vec<u8> {
    [zeros::text(&zeros::data()).as_slice(), after].concat()
}

#[test]
fn a_text_without_an_end_record_is_refused_in_its_last_line() {
    assert_eq!(data_outcome(&zeros::data_without(9)), (16, 8));
    let program = zeros::program();
    assert_eq!(program_outcome(&zeros::text(&program[..16])), (16, 16));
}

#[test]
fn text_after_the_end_record_is_refused_in_the_line_behind() {
    assert_eq!(data_outcome(&data_then(b":00000001FF\n")), (16, 10));
    assert_eq!(data_outcome(&data_then(b":0100000000FF\n")), (16, 10));
    let program = [zeros::text(&zeros::program()).as_slice(), b":00000001FF\r\n"].concat();
    assert_eq!(program_outcome(&program), (16, 18));
}

/// "Nothing after the end record's line is read as a record", so it is 16 whatever it would be as one.
#[test]
fn text_after_the_end_record_is_not_read() {
    for after in ["x", "\n", "\r\n", "\r", " ", "\0", "\x1A", "comment\n", ":0000000100\n", ":00000002FE\n", ":01FFFF000001\n", "\n\n\nx"] {
        assert_eq!(data_outcome(&data_then(after.as_bytes())), (16, 10));
    }
}

/// "Nothing after the end record's line is read as a record", so data behind an early one is missing.
#[test]
fn an_early_end_record_leaves_addresses_missing() {
    for place in 1..=8 {
        assert_eq!(data_outcome(&zeros::data_and(place, zeros::END)), (15, place));
    }
    assert_eq!(data_outcome(&zeros::data_and(9, zeros::END)), (16, 10));
}

/// "15 for "missing" and then 16 come after the last record."
#[test]
fn missing_comes_before_16() {
    assert_eq!(data_outcome(b""), (15, 0));
    assert_eq!(program_outcome(b""), (15, 0));
    assert_eq!(data_outcome(b":0100000000FF\n:0100010000FE\n"), (15, 2), "missing, and no end record");
    assert_eq!(data_outcome(b":00000001FF\nx"), (15, 1), "missing, and text after the end record");
    let lines = zeros::data();
    assert_eq!(data_outcome(&zeros::text(&lines[..7])), (15, 7));
}
