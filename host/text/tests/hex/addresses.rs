//! "15 address outside, given twice or missing": "Every address of the image must be given exactly once".

use crate::lent::{data, data_outcome, program_outcome};
use crate::writer::record;
use crate::zeros;

#[test]
fn a_data_rom_ends_before_0400() {
    assert_eq!(data_outcome(&zeros::data_and(9, ":0104000000FB")), (15, 9));
    assert_eq!(data_outcome(b":0104000000FB\n"), (15, 1));
    assert_eq!(data_outcome(b":0103FF0000FD\n:00000001FF\n"), (15, 2), "03FF is inside: others are missing");
}

#[test]
fn a_program_ends_before_0800() {
    assert_eq!(program_outcome(b":0104000000FB\n:00000001FF\n"), (15, 2), "0400 is inside: others are missing");
    assert_eq!(program_outcome(b":0107FF0000F9\n:00000001FF\n"), (15, 2), "07FF is inside: others are missing");
    assert_eq!(program_outcome(b":0108000000F7\n:00000001FF\n"), (15, 1));
}

#[test]
fn a_record_partly_outside_is_refused() {
    assert_eq!(data_outcome(b":0203FF000000FC\n"), (15, 1));
    assert_eq!(program_outcome(b":0207FF000000F8\n"), (15, 1));
}

/// An address is not counted on from FFFF to 0000.
#[test]
fn the_top_of_the_address_space_is_outside() {
    assert_eq!(data_outcome(b":02FFFF00000000\n"), (15, 1));
    assert_eq!(program_outcome(b":01FFFF000001\n"), (15, 1));
}

#[test]
fn an_address_given_twice_is_refused_where_it_comes_again() {
    let again = zeros::data()[2].clone();
    for place in 4..=9 {
        assert_eq!(data_outcome(&zeros::data_and(place, &again)), (15, place));
    }
    assert_eq!(data_outcome(&zeros::data_and(1, &again)), (15, 4));
}

#[test]
fn one_byte_given_twice_is_enough() {
    assert_eq!(data_outcome(&zeros::data_and(2, ":01007F000080")), (15, 2), "the last byte of line 1");
    assert_eq!(data_outcome(&zeros::data_and(2, ":01008000007F")), (15, 3), "the first byte of what was line 2");
    assert_eq!(data_outcome(b":0100000000FF\n:020000000000FE\n"), (15, 2));
}

/// Even if both records say the same byte.
#[test]
fn the_same_byte_again_is_given_twice() {
    assert_eq!(data_outcome(b":0100000000FF\n:0100000000FF\n"), (15, 2));
}

#[test]
fn a_missing_record_is_refused_at_the_end_record() {
    for place in 1..=8 {
        assert_eq!(data_outcome(&zeros::data_without(place)), (15, 8));
    }
}

#[test]
fn one_missing_byte_is_enough() {
    let first = format!(":7F000000{}81", "00".repeat(127));
    assert_eq!(data_outcome(&zeros::data_with(1, &first)), (15, 9), "007F is missing");
    let last = format!(":7F038000{}FE", "00".repeat(127));
    assert_eq!(data_outcome(&zeros::data_with(8, &last)), (15, 9), "03FF is missing");
    let late = format!(":7F000100{}80", "00".repeat(127));
    assert_eq!(data_outcome(&zeros::data_with(1, &late)), (15, 9), "0000 is missing");
}

#[test]
fn a_data_rom_is_not_a_program_nor_a_program_a_data_rom() {
    assert_eq!(program_outcome(&zeros::text(&zeros::data())), (15, 9));
    assert_eq!(data_outcome(&zeros::text(&zeros::program())), (15, 9));
}

#[test]
fn an_end_record_alone_leaves_every_address_missing() {
    assert_eq!(data_outcome(b":00000001FF\n"), (15, 1));
    assert_eq!(program_outcome(b":00000001FF\r\n"), (15, 1));
}

#[test]
fn records_may_come_in_any_order() {
    let mut lines = zeros::data();
    lines[..8].reverse();
    assert_eq!(data_outcome(&zeros::text(&lines)), (0, 9));
    lines.swap(3, 6);
    assert_eq!(data_outcome(&zeros::text(&lines)), (0, 9));
}

/// A cell's two bytes may come from two records: bytes have addresses, not cells.
#[test]
fn a_record_may_begin_and_end_within_a_cell() {
    let pieces: [(usize, usize); 5] = [(0, 1), (1, 4), (4, 255), (255, 510), (510, 640)];
    let bytes: Vec<u8> = (0..1024).map(|n| (n / 3) as u8).collect();
    let mut lines: Vec<String> = pieces.iter().map(|(from, to)| record(0, *from as u16, &bytes[*from..*to])).collect();
    lines.extend([(640, 895), (895, 1024)].map(|(from, to)| record(0, from as u16, &bytes[from..to])));
    lines.push(zeros::END.to_string());
    let cells: Vec<u16> = (0..512).map(|n| u16::from(bytes[2 * n]) + 256 * u16::from(bytes[2 * n + 1])).collect();
    assert_eq!(data(&zeros::text(&lines)), cells);
}

/// A reading: a data record without data gives no address, so none is outside or given twice.
#[test]
fn a_record_without_data_gives_no_address() {
    for line in [":0000000000", ":0003FF00FE", ":00040000FC", ":00FFFF0002"] {
        for place in 1..=9 {
            assert_eq!(data_outcome(&zeros::data_and(place, line)), (0, 10));
        }
    }
}

/// "the end record's address is not looked at"
#[test]
fn the_end_record_may_stand_anywhere() {
    for line in [":00123401B9", ":00000001FF", ":0003FF01FD", ":00FFFF0101"] {
        assert_eq!(data_outcome(&zeros::data_with(9, line)), (0, 9));
    }
}
