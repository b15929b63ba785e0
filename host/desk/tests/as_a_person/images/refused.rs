//! Each refusal with its place, its number and meaning, what is wrong in particular, and the line as it stands. Number and line are the
//! proved loader's.

use super::{data, program, record, text, with_line, END};
use crate::folder::Folder;

/// The third record of a program of zeros.
const THIRD: &str = ":1000200000000000000000000000000000000000D0";

/// A program of zeros with another third line.
fn third(line: &str) -> String {
    with_line(&program(&[]), 3, line)
}

#[track_caller]
fn is_refused(text: impl AsRef<[u8]>, told: &str) {
    let folder = Folder::new().with("p.hex", text).with("s.desk", "run 1\n");
    folder.desk("run --program p.hex s.desk").is_refused(2, told);
}

#[track_caller]
fn bad_character_or_length(line: &str, column: usize, why: &str) {
    let shown = format!("{:?}", line.trim_end_matches('\n').trim_end_matches('\r'));
    is_refused(third(line), &format!("p.hex:3:{column}: refusal 12, bad character or length: {why}: {shown}"));
}

#[test]
fn a_bad_character_is_told_with_its_column() {
    let wrong = |from: &str, to: &str| format!("{}\n", THIRD.replacen(from, to, 1));
    bad_character_or_length(&wrong(":", ""), 1, "\"1\": expected a colon");
    bad_character_or_length(&wrong(":", " :"), 1, "\" \": expected a colon");
    bad_character_or_length(&wrong("1", "G"), 2, "\"G\": expected a hexadecimal digit");
    bad_character_or_length(&wrong("0020", "0 20"), 5, "\" \": expected a hexadecimal digit");
    bad_character_or_length(&wrong("D0", "D\u{e9}"), 43, "\"\u{e9}\": expected a hexadecimal digit");
    bad_character_or_length(&wrong("D0", "D0\t"), 44, "\"\\t\": expected a hexadecimal digit");
    bad_character_or_length(&wrong("D0", "D0\""), 44, "\"\\\"\": expected a hexadecimal digit");
    bad_character_or_length(&wrong("0020", "00:0"), 6, "\":\": expected a hexadecimal digit");
    bad_character_or_length("; a comment\n", 1, "\";\": expected a colon");
    bad_character_or_length("\0\n", 1, "\"\\0\": expected a colon");
}

#[test]
fn a_carriage_return_ends_a_line_only_before_a_line_feed() {
    let why = "a carriage return: expected a line feed right behind it";
    let told = "p.hex:3:4: refusal 12, bad character or length";
    is_refused(third(":10\r00\n"), &format!("{told}: {why}: \":10\\r00\""));
    is_refused(third(":10\r\r\n"), &format!("{told}: {why}: \":10\\r\""));
    let told = "p.hex:129:12: refusal 12, bad character or length";
    is_refused(with_line(&program(&[]), 129, ":00000001FF\r"), &format!("{told}: {why}: \":00000001FF\\r\""));
}

#[test]
fn bytes_that_are_no_text_are_told_as_bytes() {
    let mut bytes = program(&[]).into_bytes();
    let third = bytes.split_inclusive(|byte| *byte == b'\n').take(2).flatten().count();
    bytes[third + 5] = 0xff;
    let shown = THIRD.replacen("0020", "00\u{fffd}0", 1);
    is_refused(&bytes, &format!("p.hex:3:6: refusal 12, bad character or length: the byte FFH: expected a hexadecimal digit: {shown:?}"));
    bytes[third] = 0x80;
    let shown = shown.replacen(':', "\u{fffd}", 1);
    is_refused(&bytes, &format!("p.hex:3:1: refusal 12, bad character or length: the byte 80H: expected a colon: {shown:?}"));
}

#[test]
fn a_bad_length_is_told_with_what_was_expected_and_found() {
    let digits = |count: usize| format!("{}\n", &format!("{THIRD}00")[..count + 1]);
    bad_character_or_length("\n", 1, "an empty line");
    bad_character_or_length("\r\n", 1, "an empty line");
    bad_character_or_length(":\n", 2, "0 characters after the colon: expected 10 at least");
    bad_character_or_length(":1\r\n", 3, "1 character after the colon: expected 10 at least");
    bad_character_or_length(&digits(9), 11, "9 characters after the colon: expected 10 at least");
    bad_character_or_length(&digits(10), 12, "10 characters after the colon: expected 42 for 16 data bytes");
    bad_character_or_length(&digits(41), 43, "41 characters after the colon: expected 42 for 16 data bytes");
    bad_character_or_length(&digits(43), 44, "43 characters after the colon: expected 42 for 16 data bytes");
    bad_character_or_length(&digits(44), 44, "44 characters after the colon: expected 42 for 16 data bytes");
    bad_character_or_length(":00002000E000\n", 12, "12 characters after the colon: expected 10 for 0 data bytes");
    bad_character_or_length(":010020000000DF\n", 14, "14 characters after the colon: expected 12 for 1 data byte");
}

#[test]
fn an_end_record_with_data_is_a_bad_length() {
    bad_character_or_length(&record(0, 1, &[5]), 2, "an end record with 1 data byte: expected none");
    // Whatever its check byte is.
    bad_character_or_length(":0200000105F900\n", 2, "an end record with 2 data bytes: expected none");
}

#[test]
fn a_line_without_its_ending_is_a_bad_length() {
    let why = "refusal 12, bad character or length: the line has no ending: expected a line feed behind it";
    is_refused(program(&[]).trim_end(), &format!("p.hex:129:12: {why}: \":00000001FF\""));
    is_refused(":10", &format!("p.hex:1:4: {why}: \":10\""));
}

#[test]
fn a_bad_check_byte_is_told_with_the_right_one() {
    let wrong = third(&format!("{}\n", THIRD.replace("D0", "d1")));
    let shown = THIRD.replace("D0", "d1");
    is_refused(wrong, &format!("p.hex:3:42: refusal 13, bad check byte: it is D1: expected D0: {shown:?}"));
    let ended = with_line(&program(&[]), 129, ":0000000100\r\n");
    is_refused(ended, "p.hex:129:10: refusal 13, bad check byte: it is 00: expected FF: \":0000000100\"");
    // The type is looked at only behind it.
    is_refused(third(":020000040000FB\n"), "p.hex:3:14: refusal 13, bad check byte: it is FB: expected FA: \":020000040000FB\"");
}

#[test]
fn another_type_is_told() {
    is_refused(third(":020000040000FA\n"), "p.hex:3:8: refusal 14, record type: 04 is neither 00 (data) nor 01 (end): \":020000040000FA\"");
    for kind in [2, 3, 5, 0x10, 0xff] {
        let line = record(0x20, kind, &[0; 16]);
        let told = format!("p.hex:3:8: refusal 14, record type: {kind:02X} is neither 00 (data) nor 01 (end): {:?}", line.trim_end());
        is_refused(third(&line), &told);
    }
}

const ADDRESS: &str = "refusal 15, address outside, given twice or missing";

#[test]
fn an_address_that_is_outside_is_told() {
    let cases = [(0x0800, 1, 0x0800), (0x07f8, 16, 0x0800), (0x1234, 2, 0x1234), (0xffff, 2, 0xffff)];
    for (from, bytes, outside) in cases {
        // In place of the last record, so that what is before it was given by nobody else.
        let line = record(from, 0, &vec![0; bytes]);
        let wrong = with_line(&program(&[]), 128, &line);
        is_refused(wrong, &format!("p.hex:128:4: {ADDRESS}: {outside:04X}H is outside: expected 0000H to 07FFH: {:?}", line.trim_end()));
    }
}

#[test]
fn an_address_that_is_given_twice_is_told_with_the_line_before() {
    let told = format!("p.hex:4:4: {ADDRESS}: 0020H was given before, in line 3: expected each once: {THIRD:?}");
    is_refused(with_line(&program(&[]), 4, &format!("{THIRD}\n")), &told);
    let line = record(0x001f, 0, &[0; 16]);
    let told = format!("p.hex:3:4: {ADDRESS}: 001FH was given before, in line 2: expected each once: {:?}", line.trim_end());
    is_refused(third(&line), &told);
    // From 07E8H to 0807H: the first of them that is wrong.
    let line = record(0x07e8, 0, &[0; 32]);
    let told = format!("p.hex:129:4: {ADDRESS}: 07E8H was given before, in line 127: expected each once: {:?} ..", &line[..60]);
    is_refused(with_line(&program(&[]), 129, &line), &told);
}

#[test]
fn addresses_that_are_missing_are_told_with_the_first_and_their_number() {
    let told = format!("p.hex:129: {ADDRESS}: 002FH is missing: expected 0000H to 07FFH: \":00000001FF\"");
    is_refused(third(&record(0x20, 0, &[0; 15])), &told);
    let told = format!("p.hex:128: {ADDRESS}: 0020H is missing, and 15 more: expected 0000H to 07FFH: \":00000001FF\"");
    is_refused(third(""), &told);
    let told = format!("p.hex:1: {ADDRESS}: 0000H is missing, and 2047 more: expected 0000H to 07FFH: \":00000001FF\"");
    is_refused(END, &told);
    // Said before what stands behind the end record.
    is_refused(format!("{END}\n"), &told);
}

#[test]
fn a_text_that_was_cut_between_two_lines_is_told() {
    let (half, expected) = (program(&[]).split_inclusive('\n').take(64).collect::<String>(), "expected 0000H to 07FFH");
    let last = ":1003F00000000000000000000000000000000000FD";
    let told = format!("p.hex:64: {ADDRESS}: 0400H is missing, and 1023 more: {expected}; there is no end record: {last:?}");
    is_refused(half, &told);
    is_refused("", &format!("p.hex: {ADDRESS}: the text is empty"));
}

const UNENDED: &str = "refusal 16, no end record or text after it";

#[test]
fn a_text_without_an_end_record_is_told() {
    let last = ":1007F00000000000000000000000000000000000F9";
    let told = format!("p.hex:128: {UNENDED}: the last line is no end record: {last:?}");
    is_refused(with_line(&program(&[]), 129, ""), &told);
}

#[test]
fn a_text_that_goes_on_behind_its_end_record_is_told() {
    let told = |shown: &str| format!("p.hex:130:1: {UNENDED}: the end record is in line 129: expected nothing behind it: {shown}");
    is_refused(program(&[]) + "\n", &told("\"\""));
    is_refused(program(&[]) + "\r\n\r\n", &told("\"\""));
    is_refused(program(&[]) + END, &told("\":00000001FF\""));
    is_refused(program(&[]) + "\u{1a}", &told("\"\\u{1a}\""));
    is_refused(program(&[]) + &program(&[]), &told("\":1000000000000000000000000000000000000000F0\""));
}

/// Sixty characters are shown, and that there are more.
#[test]
fn a_long_line_is_shown_in_part() {
    let line = record(0x20, 4, &[0; 255]);
    let told = format!("p.hex:3:8: refusal 14, record type: 04 is neither 00 (data) nor 01 (end): {:?} ..", &line[..60]);
    is_refused(third(&line), &told);
    let line = format!("{}{}\n", ":".repeat(59), "\u{e9}".repeat(2));
    let told = format!("p.hex:3:2: refusal 12, bad character or length: \":\": expected a hexadecimal digit: {:?} ..", &line[..61]);
    is_refused(third(&line), &told);
}

/// The sizes are those of the image that is asked for.
#[test]
fn an_image_of_the_other_kind_is_told() {
    let folder = Folder::new().with("p.hex", program(&[])).with("d.hex", data(0, 0)).with("s.desk", "run 1\n");
    let told = format!("d.hex:65: {ADDRESS}: 0400H is missing, and 1023 more: expected 0000H to 07FFH: \":00000001FF\"");
    folder.desk("run --program d.hex s.desk").is_refused(2, &told);
    let line = ":1004000000000000000000000000000000000000EC";
    let ends_so =
        "07FFH is the last, as of a program of the 77P20, or a data ROM of the 77C25, whose cells stand in a script behind `chip 77C25`";
    let told = format!("p.hex:65:4: {ADDRESS}: 0400H is outside: expected 0000H to 03FFH; {ends_so}: {line:?}");
    folder.desk("run --data p.hex s.desk").is_refused(2, &told);
    folder.write("d.hex", text(&[0; 1023]));
    let told = format!("d.hex:65: {ADDRESS}: 03FFH is missing: expected 0000H to 03FFH: \":00000001FF\"");
    folder.desk("run --data d.hex s.desk").is_refused(2, &told);
}

/// First where it was named, then what is wrong with it and where.
#[test]
fn a_refusal_of_a_named_image_says_where_it_was_named() {
    let folder = Folder::new().with("parts/bad.hex", third("\n")).with("parts/part.desk", "run 1\n  program bad.hex\n");
    let why = "refusal 12, bad character or length: an empty line: \"\"";
    let told = format!("parts/part.desk:2:11: parts/bad.hex:3:1: {why}");
    folder.write("s.desk", "include parts/part.desk\n");
    folder.desk("run s.desk").is_refused(2, &told);
    folder.desk("trace s.desk").is_refused(2, &told);
    folder.desk("convert s.desk s.record").is_refused(2, &told);
    folder.desk_with_input("run -", b"data parts/bad.hex").is_refused(2, &format!("standard input:1:6: parts/bad.hex:3:1: {why}"));
}
