//! "14 record type": "record types 00 and 01 only".

use text::read_record;

use crate::lent::data_outcome;
use crate::{writer, zeros};

fn number(line: &[u8]) -> u8 {
    read_record(line).number
}

/// The format's other types, as they are printed in accounts of it.
#[test]
fn published_records_of_other_types_are_refused() {
    assert_eq!(number(b":020000021200EA\n"), 14);
    assert_eq!(number(b":0400000300003800C1\n"), 14);
    assert_eq!(number(b":02000004FFFFFC\n"), 14);
    assert_eq!(number(b":04000005000000CD2A\n"), 14);
}

#[test]
fn of_256_types_two_are_read() {
    for kind in 0..=255 {
        let line = writer::record(kind, 0x0123, &[]) + "\n";
        assert_eq!(number(line.as_bytes()), if kind < 2 { 0 } else { 14 });
    }
}

#[test]
fn the_first_a_middle_and_the_last_record_are_refused() {
    for place in 1..=9 {
        assert_eq!(data_outcome(&zeros::data_and(place, ":020000040000FA")), (14, place));
        assert_eq!(data_outcome(&zeros::data_with(place, ":00000002FE")), (14, place));
    }
}
