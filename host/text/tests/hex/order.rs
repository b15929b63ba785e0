//! "in that order within a record, the first faulty record deciding"

use text::read_record;

use crate::lent::data_outcome;
use crate::zeros;

fn number(line: &[u8]) -> u8 {
    read_record(line).number
}

#[test]
fn twelve_comes_before_thirteen_and_fourteen() {
    assert_eq!(number(b":01000000000x\n"), 12, "a bad character, and a bad check byte whatever the digit");
    assert_eq!(number(b":0200000041BE\n"), 12, "a bad length and a bad check byte");
    assert_eq!(number(b":0200000241BB\n"), 12, "a bad length, a bad check byte and a type of 02");
    assert_eq!(number(b":00000005FB"), 12, "no ending and a type of 05");
    assert_eq!(number(b":0000000500"), 12, "no ending, a bad check byte and a type of 05");
    assert_eq!(number(b":010000010000\n"), 12, "an end record with data and a bad check byte");
}

#[test]
fn thirteen_comes_before_fourteen() {
    assert_eq!(number(b":00000002FE\n"), 14);
    assert_eq!(number(b":00000002FF\n"), 13);
    assert_eq!(number(b":02000004FFFFFD\n"), 13);
}

#[test]
fn fifteen_comes_last() {
    assert_eq!(data_outcome(b":01FFFF000001\n"), (15, 1));
    assert_eq!(data_outcome(b":01FFFF000001"), (12, 1));
    assert_eq!(data_outcome(b":01FFFF000002\n"), (13, 1));
    assert_eq!(data_outcome(b":01FFFF0200FF\n"), (14, 1));
}

#[test]
fn the_first_faulty_record_decides() {
    let (twelve, thirteen, fourteen, fifteen) = ("", ":0000000001", ":00000002FE", ":01FFFF000001");
    let faults = [(twelve, 12), (thirteen, 13), (fourteen, 14), (fifteen, 15)];
    for (first, number) in faults {
        for (second, _) in faults {
            let text = format!(":0100000000FF\n{first}\n{second}\n");
            assert_eq!(data_outcome(text.as_bytes()), (number, 2));
        }
    }
}

#[test]
fn a_faulty_record_decides_before_what_is_missing_and_before_sixteen() {
    assert_eq!(data_outcome(b":00000002FE\n"), (14, 1), "all missing and no end record");
    assert_eq!(data_outcome(b":0000000100\nx"), (13, 1), "a faulty end record and text after it");
    assert_eq!(data_outcome(&zeros::data_with(9, ":0000000100")), (13, 9), "so there is no end record");
}
