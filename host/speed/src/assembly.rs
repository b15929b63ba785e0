//! Words of either chip from the fields that both have.

use emulator::{build_on, Chip, CodeFields, JpFields, LdiFields, OpFields, Word};

#[derive(Clone, Copy)]
pub enum Line {
    Op(OpFields),
    Rt(OpFields),
    /// BRCH, CND and NA; on the 77C25 BRCH, CND and a 0 are one code.
    Jp(u8, u8, u16),
    /// ID and DST.
    Ldi(u16, u8),
}

pub const NOTHING: OpFields = OpFields { psel: 0, alu: 0, asl: 0, dpl: 0, dphm: 0, rpdcr: 0, src: 0, dst: 0 };

/// P-select.
pub const BUS: u8 = 1;
pub const M: u8 = 2;
pub const N: u8 = 3;

/// ALU.
pub const XOR: u8 = 3;
pub const ADD: u8 = 5;
pub const ADC: u8 = 7;
pub const INC: u8 = 9;
pub const SHR1: u8 = 11;

/// CND.
pub const JNCA: u8 = 0;
pub const JNCB: u8 = 2;
pub const JNZA: u8 = 4;
pub const JNZB: u8 = 6;
pub const JNOVA1: u8 = 12;
pub const JSA0: u8 = 17;
pub const JSB0: u8 = 19;
pub const JDPL0: u8 = 24;

/// Only a move.
pub const fn mov(dst: u8, src: u8) -> Line {
    Line::Op(OpFields { src, dst, ..NOTHING })
}

/// An operation on one accumulator, 0 A and 1 B, and nothing else.
pub const fn alu(alu: u8, asl: u8) -> Line {
    Line::Op(OpFields { alu, asl, ..NOTHING })
}

pub const fn jump(na: u16) -> Line {
    Line::Jp(emulator::branch::JUMP, 0, na)
}

pub const fn call(na: u16) -> Line {
    Line::Jp(emulator::branch::CALL, 0, na)
}

pub const fn when(cnd: u8, na: u16) -> Line {
    Line::Jp(emulator::branch::JUMP_ON_CONDITION, cnd, na)
}

impl Line {
    /// The word of the chip; all fields are narrow enough for both.
    pub fn word(self, chip: Chip) -> u32 {
        let spare = 0;
        let word = match (self, chip) {
            (Line::Op(fields), _) => Word::Op(fields),
            (Line::Rt(fields), _) => Word::Rt(fields),
            (Line::Jp(brch, cnd, na), Chip::Upd77p20) => Word::Jp(JpFields { brch, cnd, na, spare }),
            (Line::Jp(brch, cnd, na), Chip::Upd77c25) => {
                Word::JpCode(CodeFields { code: u16::from(brch) << 6 | u16::from(cnd) << 1, na, spare })
            }
            (Line::Ldi(id, dst), _) => Word::Ldi(LdiFields { id, spare, dst }),
        };
        build_on(chip, &word).expect("fields of both chips")
    }
}
