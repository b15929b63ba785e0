//! Taking a word apart and building it.

use crate::machine::{C25, P20};
use emulator::{build, build_on, take_apart, take_apart_on, Chip, JpFields, LdiFields, OpFields, Word};

pub const OP: OpFields = OpFields { psel: 0, alu: 0, asl: 0, dpl: 0, dphm: 0, rpdcr: 0, src: 0, dst: 0 };
const JP: JpFields = JpFields { brch: 0, cnd: 0, na: 0, spare: 0 };
pub const LDI: LdiFields = LdiFields { id: 0, spare: 0, dst: 0 };

/// The 77P20 by the function that takes no chip.
fn taken(chip: Chip, number: u32) -> Result<Word, u8> {
    match chip {
        Chip::Upd77p20 => take_apart(number),
        Chip::Upd77c25 => take_apart_on(C25, number),
    }
}

fn built(chip: Chip, word: &Word) -> Result<u32, u8> {
    match chip {
        Chip::Upd77p20 => build(word),
        Chip::Upd77c25 => build_on(C25, word),
    }
}

#[track_caller]
pub fn are_the_same_on(chip: Chip, number: u32, word: Word) {
    assert_eq!(taken(chip, number), Ok(word));
    assert_eq!(built(chip, &word), Ok(number));
}

#[track_caller]
fn are_the_same(number: u32, word: Word) {
    are_the_same_on(P20, number, word);
}

#[track_caller]
pub fn comes_back(chip: Chip, word: Word) {
    assert_eq!(built(chip, &word).and_then(|number| taken(chip, number)), Ok(word));
}

#[test]
fn each_field_of_op_and_rt_in_its_place() {
    let places = [
        (0x000000, OP),
        (0x180000, OpFields { psel: 3, ..OP }),
        (0x078000, OpFields { alu: 15, ..OP }),
        (0x004000, OpFields { asl: 1, ..OP }),
        (0x003000, OpFields { dpl: 3, ..OP }),
        (0x000e00, OpFields { dphm: 7, ..OP }),
        (0x000100, OpFields { rpdcr: 1, ..OP }),
        (0x0000f0, OpFields { src: 15, ..OP }),
        (0x00000f, OpFields { dst: 15, ..OP }),
        (0x0db5a6, OpFields { psel: 1, alu: 11, asl: 0, dpl: 3, dphm: 2, rpdcr: 1, src: 10, dst: 6 }),
    ];
    for (number, fields) in places {
        are_the_same(number, Word::Op(fields));
        are_the_same(0x200000 + number, Word::Rt(fields));
    }
}

#[test]
fn each_field_of_jp_in_its_place() {
    are_the_same(0x400000, Word::Jp(JP));
    are_the_same(0x5c0000, Word::Jp(JpFields { brch: 7, ..JP }));
    are_the_same(0x43e000, Word::Jp(JpFields { cnd: 31, ..JP }));
    are_the_same(0x401ff0, Word::Jp(JpFields { na: 511, ..JP }));
    are_the_same(0x40000f, Word::Jp(JpFields { spare: 15, ..JP }));
    are_the_same(0x501000, Word::Jp(JpFields { brch: 0b100, na: 0x100, ..JP }));
}

#[test]
fn each_field_of_ldi_in_its_place() {
    are_the_same(0x600000, Word::Ldi(LDI));
    are_the_same(0x7fffe0, Word::Ldi(LdiFields { id: 65535, ..LDI }));
    are_the_same(0x600010, Word::Ldi(LdiFields { spare: 1, ..LDI }));
    are_the_same(0x60000f, Word::Ldi(LdiFields { dst: 15, ..LDI }));
    are_the_same(0x624681, Word::Ldi(LdiFields { id: 0x1234, spare: 0, dst: 1 }));
}

#[test]
fn every_word_comes_back_from_its_fields() {
    let step = if cfg!(debug_assertions) { 7 } else { 1 };
    for (chip, bits) in [(P20, 23), (C25, 24)] {
        for number in (0..1 << bits).step_by(step) {
            let word = taken(chip, number).unwrap();
            let kind = match (chip, word) {
                (_, Word::Op(_)) => 0,
                (_, Word::Rt(_)) => 1,
                (P20, Word::Jp(_)) | (C25, Word::JpCode(_)) => 2,
                (_, Word::Ldi(_)) => 3,
                _ => panic!("a word of the other chip"),
            };
            assert_eq!(kind, number >> (bits - 2));
            assert_eq!(built(chip, &word), Ok(number));
        }
    }
}

/// The same from the other side, for fields that fit.
#[test]
fn jp_fields_come_back_from_their_word() {
    for brch in 0..8 {
        for cnd in 0..32 {
            for na in (0..512).step_by(5) {
                comes_back(P20, Word::Jp(JpFields { brch, cnd, na, spare: brch ^ 5 }));
            }
        }
    }
}

#[test]
fn ldi_fields_come_back_from_their_word() {
    for (chip, spares) in [(P20, 2), (C25, 4)] {
        for id in 0..=65535 {
            comes_back(chip, Word::Ldi(LdiFields { id, spare: (id % spares) as u8, dst: (id / 3 % 16) as u8 }));
        }
    }
}

/// Each field one too wide for its place.
#[test]
fn refusal_11_a_field_too_wide() {
    for (chip, dphm, spare) in [(P20, 8, 2), (C25, 16, 4)] {
        let op_words = [
            OpFields { psel: 4, ..OP },
            OpFields { alu: 16, ..OP },
            OpFields { asl: 2, ..OP },
            OpFields { dpl: 4, ..OP },
            OpFields { dphm, ..OP },
            OpFields { rpdcr: 2, ..OP },
            OpFields { src: 16, ..OP },
            OpFields { dst: 16, ..OP },
            OpFields { dst: 255, ..OP },
        ];
        for fields in op_words {
            assert_eq!(built(chip, &Word::Op(fields)), Err(11));
            assert_eq!(built(chip, &Word::Rt(fields)), Err(11));
        }
        for fields in [LdiFields { spare, ..LDI }, LdiFields { dst: 16, ..LDI }] {
            assert_eq!(built(chip, &Word::Ldi(fields)), Err(11));
        }
    }
}

#[test]
fn refusal_11_a_jp_field_too_wide() {
    for (brch, cnd, na, spare) in [(8, 0, 0, 0), (0, 32, 0, 0), (0, 0, 512, 0), (0, 0, 65535, 0), (0, 0, 0, 16)] {
        assert_eq!(build(&Word::Jp(JpFields { brch, cnd, na, spare })), Err(11));
    }
}
