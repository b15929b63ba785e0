//! "13 bad check byte": "the sum of all bytes from LL to CC is 0 modulo 256".

use text::read_record;

use crate::lent::{data_outcome, program_outcome};
use crate::zeros;

fn number(line: &str) -> u8 {
    read_record(line.as_bytes()).number
}

#[test]
fn one_check_byte_of_256_is_right() {
    let heads = [(":00000001", 0xFF), (":00000000", 0x00), (":0100000041", 0xBE), (":04000000ABCDEFFA", 0x9B), (":00123401", 0xB9)];
    for (head, right) in heads {
        for check in 0..=255 {
            assert_eq!(number(&format!("{head}{check:02X}\n")), if check == right { 0 } else { 13 });
        }
    }
}

/// The sum takes in the length, both address bytes, the type and the data.
#[test]
fn every_byte_counts() {
    assert_eq!(number(":0100000041BE\n"), 0);
    assert_eq!(number(":0101000041BE\n"), 13);
    assert_eq!(number(":0100010041BE\n"), 13);
    assert_eq!(number(":0100000241BE\n"), 13);
    assert_eq!(number(":0100000042BE\n"), 13);
    assert_eq!(number(":020000004100BE\n"), 13);
}

#[test]
fn the_first_a_middle_and_the_last_record_are_refused() {
    let (data, program) = (zeros::data(), zeros::program());
    for place in 1..=9 {
        let line = &data[place - 1];
        let last = if line.ends_with('0') { "1" } else { "0" };
        let wrong = format!("{}{last}", &line[..line.len() - 1]);
        assert_eq!(data_outcome(&zeros::data_with(place, &wrong)), (13, place));
    }
    for place in 1..=9 {
        assert_eq!(data_outcome(&zeros::data_and(place, ":0000000100")), (13, place));
    }
    let mut lines = program;
    lines[16] = ":00000001FE".to_string();
    assert_eq!(program_outcome(&zeros::text(&lines)), (13, 17));
}
