//! "12 bad character or length"

use text::{read_record, ReadRecord};

use crate::lent::data_outcome;
use crate::zeros;

fn number(line: &[u8]) -> u8 {
    read_record(line).number
}

/// "A refused record's part is empty."
#[test]
fn a_refused_record_has_nothing() {
    let nothing = |number| ReadRecord { number, kind: 0, address: 0, bytes: 0, data: 0..0 };
    assert_eq!(read_record(b":0112340041x8\n"), nothing(12));
    assert_eq!(read_record(b":011234004179\n"), nothing(13));
    assert_eq!(read_record(b":011234054173\n"), nothing(14));
}

#[test]
fn a_record_begins_with_a_colon() {
    assert_eq!(number(b"00000001FF\n"), 12);
    assert_eq!(number(b";00000001FF\n"), 12);
    assert_eq!(number(b" :00000001FF\n"), 12);
    assert_eq!(number(b"::00000001FF\n"), 12);
    assert_eq!(number(b"\xEF\xBB\xBF:00000001FF\n"), 12);
}

#[test]
fn one_character_that_is_no_digit_is_refused_at_every_place() {
    let good = b":0B0010006164647265737320676170A7\n";
    assert_eq!(number(good), 0);
    for place in 0..good.len() {
        for bad in [b'g', b'G', b'/', b':', b'@', b'`', b' ', b'\t', b'\r', b'\n', b'-', b'+', b'x', 0, 0x80, 0xFF] {
            let mut line = *good;
            line[place] = bad;
            assert_eq!(number(&line), if line == *good { 0 } else { 12 }, "{bad} at {place}");
        }
    }
}

#[test]
fn too_few_characters_are_refused() {
    let good = b":0B0010006164647265737320676170A7";
    for length in 0..good.len() {
        let line: Vec<u8> = good[..length].iter().chain(b"\n").copied().collect();
        assert_eq!(number(&line), 12, "{length} characters");
    }
}

#[test]
fn too_many_characters_are_refused() {
    assert_eq!(number(b":0B0010006164647265737320676170A70\n"), 12);
    assert_eq!(number(b":0B0010006164647265737320676170A700\n"), 12);
    assert_eq!(number(b":00000001FF00\n"), 12);
}

/// The sum of each is right, so it is the length that is refused.
#[test]
fn the_first_byte_counts_the_data_bytes() {
    assert_eq!(number(b":020000000000FE\n"), 0);
    assert_eq!(number(b":010000000000FF\n"), 12);
    assert_eq!(number(b":030000000000FD\n"), 12);
    assert_eq!(number(b":00000000000000\n"), 12);
    assert_eq!(number(b":FF00000001\n"), 12);
}

#[test]
fn half_a_byte_is_a_bad_length() {
    assert_eq!(number(b":0000000\n"), 12);
    assert_eq!(number(b":00000001F\n"), 12);
    assert_eq!(number(b":00000001FF0\n"), 12);
}

#[test]
fn less_than_a_record_is_a_bad_length() {
    for line in [b":\n".as_slice(), b":0\n", b":00\n", b":0000\n", b":000000\n", b":00000000\n", b":\r\n", b":00000000\r\n"] {
        assert_eq!(number(line), 12);
    }
}

/// "an end record with data [is] a bad length", whatever its check byte.
#[test]
fn an_end_record_with_data_is_a_bad_length() {
    assert_eq!(number(b":0100000100FE\n"), 12);
    assert_eq!(number(b":0100000100FF\n"), 12);
    assert_eq!(number(b":020000010000FD\n"), 12);
    let longest = format!(":FF000001{}00\n", "00".repeat(255));
    assert_eq!(number(longest.as_bytes()), 12);
    assert_eq!(data_outcome(&zeros::data_with(9, ":0100000100FE")), (12, 9));
    assert_eq!(data_outcome(&zeros::data_and(1, ":0100000100FE")), (12, 1));
}

#[test]
fn the_first_a_middle_and_the_last_record_are_refused() {
    for line in [":0000000xFF", "", ":", ":00000001F", ":0100000000", "comment"] {
        for place in 1..=9 {
            assert_eq!(data_outcome(&zeros::data_with(place, line)), (12, place));
            assert_eq!(data_outcome(&zeros::data_and(place, line)), (12, place));
        }
    }
}
