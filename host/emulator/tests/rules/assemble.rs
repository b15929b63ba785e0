//! Words put together from the table "Taking a word apart", without help from the emulator. What names no
//! chip is about the 77P20.

use crate::chip_77c25::assemble as large;
use crate::machine::P20;
use emulator::Chip;

pub mod src {
    pub const NONE: u32 = 0;
    pub const A: u32 = 1;
    pub const B: u32 = 2;
    pub const TR: u32 = 3;
    pub const DP: u32 = 4;
    pub const RP: u32 = 5;
    pub const RO: u32 = 6;
    pub const SGN: u32 = 7;
    pub const DR: u32 = 8;
    pub const DRNF: u32 = 9;
    pub const SR: u32 = 10;
    pub const SIM: u32 = 11;
    pub const SIL: u32 = 12;
    pub const K: u32 = 13;
    pub const L: u32 = 14;
    pub const MEM: u32 = 15;
}

pub mod dst {
    pub const NONE: u32 = 0;
    pub const A: u32 = 1;
    pub const B: u32 = 2;
    pub const TR: u32 = 3;
    pub const DP: u32 = 4;
    pub const RP: u32 = 5;
    pub const DR: u32 = 6;
    pub const SR: u32 = 7;
    pub const SOL: u32 = 8;
    pub const SOM: u32 = 9;
    pub const K: u32 = 10;
    pub const KLR: u32 = 11;
    pub const KLM: u32 = 12;
    pub const L: u32 = 13;
    pub const ALSO_NONE: u32 = 14;
    pub const MEM: u32 = 15;
}

pub mod psel {
    pub const RAM: u32 = 0;
    pub const BUS: u32 = 1;
    pub const M: u32 = 2;
    pub const N: u32 = 3;
}

pub mod alu {
    pub const OR: u32 = 1;
    pub const ADD: u32 = 5;
    pub const INC: u32 = 9;
}

/// The fields of an OP or RT word.
#[derive(Clone, Copy, Debug, Default)]
pub struct Op {
    pub psel: u32,
    pub alu: u32,
    pub asl: u32,
    pub dpl: u32,
    pub dphm: u32,
    pub rpdcr: u32,
    pub src: u32,
    pub dst: u32,
}

/// DPH-M has a bit more on the 77C25, and what is above it stands a bit higher.
pub fn op_on(chip: Chip, fields: Op) -> u32 {
    let Op { psel, alu, asl, dpl, dphm, rpdcr, src, dst } = fields;
    let low = dphm << 9 | rpdcr << 8 | src << 4 | dst;
    match chip {
        Chip::Upd77p20 => psel << 19 | alu << 15 | asl << 14 | dpl << 12 | low,
        Chip::Upd77c25 => psel << 20 | alu << 16 | asl << 15 | dpl << 13 | low,
    }
}

pub fn rt_on(chip: Chip, fields: Op) -> u32 {
    row(chip, 1) | op_on(chip, fields)
}

/// An OP word that only moves.
pub fn mov_on(chip: Chip, dst: u32, src: u32) -> u32 {
    op_on(chip, Op { src, dst, ..Op::default() })
}

pub fn ldi_on(chip: Chip, id: u32, dst: u32) -> u32 {
    match chip {
        Chip::Upd77p20 => row(chip, 3) | id << 5 | dst,
        Chip::Upd77c25 => row(chip, 3) | id << 6 | dst,
    }
}

pub fn jump_on(chip: Chip, na: u32) -> u32 {
    match chip {
        Chip::Upd77p20 => jp(JUMP, 0, na),
        Chip::Upd77c25 => large::jp(large::JMP, na),
    }
}

pub fn call_on(chip: Chip, na: u32) -> u32 {
    match chip {
        Chip::Upd77p20 => jp(CALL, 0, na),
        Chip::Upd77c25 => large::jp(large::CALL, na),
    }
}

/// The two highest bits of a word.
fn row(chip: Chip, number: u32) -> u32 {
    match chip {
        Chip::Upd77p20 => number << 21,
        Chip::Upd77c25 => number << 22,
    }
}

pub fn op(fields: Op) -> u32 {
    op_on(P20, fields)
}

pub fn rt(fields: Op) -> u32 {
    rt_on(P20, fields)
}

pub fn mov(dst: u32, src: u32) -> u32 {
    mov_on(P20, dst, src)
}

pub fn ldi(id: u32, dst: u32) -> u32 {
    ldi_on(P20, id, dst)
}

pub fn jp(brch: u32, cnd: u32, na: u32) -> u32 {
    2 << 21 | brch << 18 | cnd << 13 | na << 4
}

pub const JUMP_ON_CONDITION: u32 = 0b010;
pub const JUMP: u32 = 0b100;
pub const CALL: u32 = 0b101;
