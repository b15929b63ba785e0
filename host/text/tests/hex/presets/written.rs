//! "sixteen records of sixteen bytes and then `:00000001FF`, in capitals, lines ended by a line feed"

use random::Random;
use text::{write_preset, Writing};

use super::{ram, zeros};
use crate::writer;

/// The text of a RAM, in a buffer of its length.
pub fn written(ram: &[u16]) -> Vec<u8> {
    let mut text = vec![b'?'; 716];
    assert_eq!(write_preset(ram, &mut text), Writing { number: 0, length: 716 });
    text
}

/// 34 + 12 more than the zeros' F0 before it leaves F0 - 46 = AA.
#[test]
fn a_cell_has_its_low_byte_first() {
    let mut ram = [0; 128];
    ram[0] = 0x1234;
    assert_eq!(written(&ram), zeros::with(1, &format!(":100000003412{}AA", "00".repeat(14))));
}

/// "the sum of all bytes from LL to CC is 0 modulo 256"
#[test]
fn a_line_by_hand_with_its_check_byte() {
    let mut ram = [0; 128];
    ram[80..88].copy_from_slice(&[0xABCD, 0xEF01, 0x2345, 0x6789, 0x0000, 0xFFFF, 0x8000, 0x0001]);
    let head = 0x10 + 0xA0;
    let data = 0xCD + 0xAB + 0x01 + 0xEF + 0x45 + 0x23 + 0x89 + 0x67 + 0xFF + 0xFF + 0x80 + 0x01;
    assert_eq!((head + data + 0x11) % 256, 0);
    assert_eq!(written(&ram), zeros::with(11, ":1000A000CDAB01EF452389670000FFFF0080010011"));
}

#[test]
fn letters_are_capitals() {
    let text = written(&[0xFACE; 128]);
    assert!(text.windows(4).any(|four| four == b"CEFA"));
    assert!(!text.iter().any(u8::is_ascii_lowercase));
}

#[test]
fn lines_end_with_a_line_feed_alone() {
    let text = written(&[0x0D0A; 128]);
    assert_eq!(
        text.split_inclusive(|character| *character == b'\n').map(<[u8]>::len).collect::<Vec<_>>(),
        [vec![44; 16], vec![12]].concat()
    );
    assert!(!text.contains(&b'\r'));
    assert!(text.ends_with(b"\n:00000001FF\n"));
}

#[test]
fn one_cell_alone_comes_to_its_place() {
    for (cell, value) in (0..128).flat_map(|cell| [0x0001, 0x0100, 0xFEDC].map(|value| (cell, value))) {
        let mut ram = [0; 128];
        ram[cell] = value;
        assert_eq!(written(&ram), crate::zeros::text(&writer::lines(&ram::bytes(&ram), 16)));
    }
}

#[test]
fn every_value_of_a_cell_is_written() {
    for first in (0..=0xFFFF).step_by(128) {
        let ram: Vec<u16> = (first..first + 128).map(|value: u32| value as u16).collect();
        assert_eq!(written(&ram), crate::zeros::text(&writer::lines(&ram::bytes(&ram), 16)));
    }
}

#[test]
fn cells_at_random_are_written() {
    let mut random = Random::new(4);
    for _ in 0..500 {
        let ram = ram::any(&mut random);
        assert_eq!(written(&ram), crate::zeros::text(&writer::lines(&ram::bytes(&ram), 16)));
    }
}
