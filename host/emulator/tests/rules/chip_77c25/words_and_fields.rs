//! Taking a word of 24 bits apart and building it.

use super::machine::C25;
use crate::words_and_fields::{are_the_same_on, comes_back, LDI, OP};
use emulator::{build, build_on, take_apart, take_apart_on, Chip, CodeFields, JpFields, LdiFields, OpFields, Word};

const JP: CodeFields = CodeFields { code: 0, na: 0, spare: 0 };

#[track_caller]
fn are_the_same(number: u32, word: Word) {
    are_the_same_on(C25, number, word);
}

#[test]
fn each_field_of_op_and_rt_in_its_place() {
    let places = [
        (0x000000, OP),
        (0x300000, OpFields { psel: 3, ..OP }),
        (0x0f0000, OpFields { alu: 15, ..OP }),
        (0x008000, OpFields { asl: 1, ..OP }),
        (0x006000, OpFields { dpl: 3, ..OP }),
        (0x001e00, OpFields { dphm: 15, ..OP }),
        (0x000100, OpFields { rpdcr: 1, ..OP }),
        (0x0000f0, OpFields { src: 15, ..OP }),
        (0x00000f, OpFields { dst: 15, ..OP }),
        (0x1b75a6, OpFields { psel: 1, alu: 11, asl: 0, dpl: 3, dphm: 10, rpdcr: 1, src: 10, dst: 6 }),
        (0x24ca59, OpFields { psel: 2, alu: 4, asl: 1, dpl: 2, dphm: 5, rpdcr: 0, src: 5, dst: 9 }),
    ];
    for (number, fields) in places {
        are_the_same(number, Word::Op(fields));
        are_the_same(0x400000 + number, Word::Rt(fields));
    }
}

/// The last three are JMP 100H, CALL 7FFH and JDPLN0 001H.
#[test]
fn each_field_of_jp_in_its_place() {
    are_the_same(0x800000, Word::JpCode(JP));
    are_the_same(0xbfe000, Word::JpCode(CodeFields { code: 0x1ff, ..JP }));
    are_the_same(0x801ffc, Word::JpCode(CodeFields { na: 0x7ff, ..JP }));
    are_the_same(0x800003, Word::JpCode(CodeFields { spare: 3, ..JP }));
    are_the_same(0xa00400, Word::JpCode(CodeFields { code: 0b100000000, na: 0x100, spare: 0 }));
    are_the_same(0xa81ffc, Word::JpCode(CodeFields { code: 0b101000000, na: 0x7ff, spare: 0 }));
    are_the_same(0x962004, Word::JpCode(CodeFields { code: 0b010110001, na: 0x001, spare: 0 }));
}

#[test]
fn each_field_of_ldi_in_its_place() {
    are_the_same(0xc00000, Word::Ldi(LDI));
    are_the_same(0xffffc0, Word::Ldi(LdiFields { id: 65535, ..LDI }));
    are_the_same(0xc00030, Word::Ldi(LdiFields { spare: 3, ..LDI }));
    are_the_same(0xc00010, Word::Ldi(LdiFields { spare: 1, ..LDI }));
    are_the_same(0xc0000f, Word::Ldi(LdiFields { dst: 15, ..LDI }));
    are_the_same(0xc48d01, Word::Ldi(LdiFields { id: 0x1234, spare: 0, dst: 1 }));
}

/// The same from the other side, for fields that fit.
#[test]
fn jp_fields_come_back_from_their_word() {
    for code in 0..512 {
        for na in (0..2048).step_by(5) {
            comes_back(C25, Word::JpCode(CodeFields { code, na, spare: (code % 4) as u8 }));
        }
    }
}

#[test]
fn refusal_4_a_word_of_2_to_the_24() {
    for word in [1 << 24, 1 << 25, 1 << 31, u32::MAX] {
        assert_eq!(take_apart_on(C25, word), Err(4));
    }
    // A bit more than the smaller chip's words.
    assert_eq!(take_apart(1 << 23), Err(4));
    are_the_same(1 << 23, Word::JpCode(JP));
}

/// Each field one too wide for its place.
#[test]
fn refusal_11_a_jp_field_too_wide() {
    for (code, na, spare) in [(512, 0, 0), (65535, 0, 0), (0, 2048, 0), (0, 65535, 0), (0, 0, 4)] {
        assert_eq!(build_on(C25, &Word::JpCode(CodeFields { code, na, spare })), Err(11));
    }
}

/// A field set that the chip does not have is refused even if all its fields are 0.
#[test]
fn refusal_11_the_other_chips_jp_fields() {
    assert_eq!(build_on(C25, &Word::Jp(JpFields::default())), Err(11));
    assert_eq!(build_on(C25, &Word::Jp(JpFields { brch: 0b100, cnd: 0, na: 0x100, spare: 0 })), Err(11));
    assert_eq!(build(&Word::JpCode(JP)), Err(11));
    assert_eq!(build_on(Chip::Upd77p20, &Word::JpCode(CodeFields { code: 0x100, na: 0x100, spare: 0 })), Err(11));
}

/// Four bits of DPH-M fit here and two spare bits of LDI; the smaller chip has one less of each.
#[test]
fn what_fits_this_chip_only() {
    are_the_same(0x001000, Word::Op(OpFields { dphm: 8, ..OP }));
    assert_eq!(build(&Word::Op(OpFields { dphm: 8, ..OP })), Err(11));
    are_the_same(0xc00020, Word::Ldi(LdiFields { spare: 2, ..LDI }));
    assert_eq!(build(&Word::Ldi(LdiFields { spare: 2, ..LDI })), Err(11));
}

#[test]
fn the_smaller_chip_by_either_name() {
    for number in (0..1 << 24).step_by(997) {
        let word = take_apart(number);
        assert_eq!(take_apart_on(Chip::Upd77p20, number), word);
        if let Ok(word) = word {
            assert_eq!(build_on(Chip::Upd77p20, &word), Ok(number));
        }
    }
}
