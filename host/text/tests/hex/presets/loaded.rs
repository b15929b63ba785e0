//! "A preset is the 128 RAM cells, 256 bytes from address 0 in Intel HEX, low byte first. [..] Loading follows E1"

use super::{ram, zeros};
use crate::writer;

/// 10 + 00 + 00 + 00 + 34 + 12 + 78 are CE, and CE + 32 is 100; the last line's 10 + 00 + F0 + 00 + EF + 01 + 10 is 200.
#[test]
fn a_cell_has_its_low_byte_first() {
    let cells = ram::loaded(&zeros::with(1, &format!(":10000000341278{}32", "00".repeat(13))));
    assert_eq!(cells[..3], [0x1234, 0x0078, 0x0000]);
    let cells = ram::loaded(&zeros::with(16, &format!(":1000F000{}EF0110", "00".repeat(14))));
    assert_eq!(cells[126..], [0x0000, 0x01EF]);
}

#[test]
fn every_byte_comes_to_its_place() {
    let bytes: Vec<u8> = (0..256u32).map(|n| (n * 37 + n * n / 5) as u8).collect();
    let cells: Vec<u16> = (0..128).map(|n| u16::from(bytes[2 * n]) | u16::from(bytes[2 * n + 1]) << 8).collect();
    for bytes_per_record in [1, 2, 3, 7, 16, 32, 128, 255] {
        assert_eq!(ram::loaded(&crate::zeros::text(&writer::lines(&bytes, bytes_per_record))), cells);
    }
}

/// "A value too wide for its cell is loaded"
#[test]
fn every_bit_is_filled() {
    assert_eq!(ram::loaded(&crate::zeros::text(&writer::lines(&[0xFF; 256], 16))), [0xFFFF; 128]);
}

#[test]
fn small_letters_and_carriage_returns_are_read() {
    let capitals = zeros::with(2, &format!(":10001000ABCDEF{}79", "00".repeat(13)));
    let small = capitals.to_ascii_lowercase();
    assert_ne!(small, capitals);
    let returns: Vec<u8> = String::from_utf8(small).unwrap().replace('\n', "\r\n").into_bytes();
    assert_eq!(ram::loaded(&capitals)[7..10], [0x0000, 0xCDAB, 0x00EF]);
    assert_eq!(ram::loaded(&returns), ram::loaded(&capitals));
}

#[test]
fn a_preset_ends_before_0100() {
    assert_eq!(ram::outcome(&zeros::and(17, ":0101000000FE")), (15, 17));
    assert_eq!(ram::outcome(b":0100FF000000\n\n"), (12, 2), "00FF is inside: the empty line decides");
    assert_eq!(ram::outcome(b":0101000000FE\n\n"), (15, 1));
    assert_eq!(ram::outcome(&crate::zeros::text(&crate::zeros::data())), (15, 3), "a data ROM is longer");
}

#[test]
fn an_address_given_twice_is_refused() {
    assert_eq!(ram::outcome(&zeros::and(2, ":01000F0000F0")), (15, 2));
    assert_eq!(ram::outcome(&zeros::and(2, ":0100100000EF")), (15, 3));
}

#[test]
fn every_other_refusal_is_as_for_the_other_images() {
    for number in 1..=17 {
        assert_eq!(ram::outcome(&zeros::with(number, "")), (12, number));
        assert_eq!(ram::outcome(&zeros::with(number, ":0000000100")), (13, number));
        assert_eq!(ram::outcome(&zeros::with(number, ":00000002FE")), (14, number));
    }
    assert_eq!(ram::outcome(&zeros::without(17)), (16, 16));
    assert_eq!(ram::outcome(&zeros::and(18, "")), (16, 18));
    assert_eq!(ram::outcome(b""), (15, 0));
}
