//! "Lines end with a line feed or with carriage return and line feed."

use text::read_record;

use crate::lent::{data_outcome, program_outcome};
use crate::zeros;

#[test]
fn a_record_ends_with_either() {
    assert_eq!(read_record(b":00000001FF\n").number, 0);
    assert_eq!(read_record(b":00000001FF\r\n").number, 0);
    assert_eq!(read_record(b":0100000041BE\n"), read_record(b":0100000041BE\r\n"));
}

/// "a line without its ending [is] a bad length"
#[test]
fn a_line_without_its_ending_is_a_bad_length() {
    assert_eq!(read_record(b":00000001FF").number, 12);
    assert_eq!(read_record(b":00000001FF\r").number, 12);
    assert_eq!(read_record(b"").number, 12);
}

#[test]
fn no_other_ending_is_taken() {
    let lines: [&[u8]; 6] =
        [b":00000001FF\r\r\n", b":00000001FF\n\r", b":00000001FF\n\n", b":00000001FF\n\r\n", b":00000001FF \n", b":00000001FF\0"];
    assert_eq!(lines.map(|line| read_record(line).number), [12; 6]);
}

#[test]
fn two_lines_are_not_one() {
    assert_eq!(read_record(b":00000001FF\n:00000001FF\n").number, 12);
    assert_eq!(read_record(b":00000001FF\n:00000001FF").number, 12);
}

#[test]
fn a_text_may_have_one_ending_the_other_or_both() {
    let data = zeros::data();
    let returns: Vec<String> = data.iter().map(|line| format!("{line}\r")).collect();
    let both: Vec<String> = data.iter().enumerate().map(|(n, line)| if n % 2 == 0 { format!("{line}\r") } else { line.clone() }).collect();
    assert_eq!(data_outcome(&zeros::text(&data)), (0, 9));
    assert_eq!(data_outcome(&zeros::text(&returns)), (0, 9));
    assert_eq!(data_outcome(&zeros::text(&both)), (0, 9));
}

#[test]
fn the_end_record_needs_its_ending_too() {
    let whole = zeros::text(&zeros::data());
    assert_eq!(data_outcome(&whole[..whole.len() - 1]), (12, 9));
    let whole = zeros::text(&zeros::program());
    assert_eq!(program_outcome(&whole[..whole.len() - 1]), (12, 17));
    let with_return: Vec<u8> = whole[..whole.len() - 1].iter().chain(b"\r").copied().collect();
    assert_eq!(program_outcome(&with_return), (12, 17));
}

#[test]
fn carriage_returns_alone_end_no_line() {
    let text: Vec<u8> = zeros::text(&zeros::data()).iter().map(|byte| if *byte == b'\n' { b'\r' } else { *byte }).collect();
    assert_eq!(data_outcome(&text), (12, 1));
}

/// "An empty line [is] a bad length": it is not passed over.
#[test]
fn an_empty_line_is_a_bad_length() {
    assert_eq!(read_record(b"\n").number, 12);
    assert_eq!(read_record(b"\r\n").number, 12);
    for ending in ["", "\r"] {
        assert_eq!(data_outcome(&zeros::data_and(1, ending)), (12, 1));
        assert_eq!(data_outcome(&zeros::data_and(5, ending)), (12, 5));
        assert_eq!(data_outcome(&zeros::data_and(9, ending)), (12, 9));
    }
    assert_eq!(data_outcome(b"\n"), (12, 1));
}
