//! The bus: what a source puts on it, and what reading the source changes.

use crate::bits::{reversed, to_register};
use crate::chip::Chip;
use crate::registers::Registers;
use crate::status;

/// None on the 77P20, TRB on the 77C25.
pub const NONE_OR_TRB: u8 = 0;
pub const A: u8 = 1;
pub const B: u8 = 2;
pub const TR: u8 = 3;
pub const DP: u8 = 4;
pub const RP: u8 = 5;
pub const RO: u8 = 6;
pub const SGN: u8 = 7;
pub const DR: u8 = 8;
pub const DRNF: u8 = 9;
pub const SR: u8 = 10;
pub const SIM: u8 = 11;
pub const SIL: u8 = 12;
pub const K: u8 = 13;
pub const L: u8 = 14;
pub const MEM: u8 = 15;

/// The bus value of a source. Nobody sees the 0 that stands for "none": refusal 6 turns away every word that would use it.
#[inline]
pub fn value(chip: Chip, registers: &Registers, rom: &[u16], ram: &[u16], src: u8) -> u16 {
    match src {
        A => registers.a,
        B => registers.b,
        TR => registers.tr,
        DP => registers.dp,
        RP => registers.rp,
        RO => rom_output(chip, registers, rom),
        SGN if registers.flags_a.s1 => 0x7fff,
        SGN => 0x8000,
        DR | DRNF => registers.dr,
        SR => registers.sr,
        SIM => registers.si,
        SIL => reversed(registers.si),
        K => registers.k,
        L => registers.l,
        MEM => ram[usize::from(registers.dp)],
        _ => match chip {
            Chip::Upd77p20 => 0,
            Chip::Upd77c25 => registers.trb,
        },
    }
}

/// Whether a source puts nothing on the bus.
#[inline]
pub fn is_none(chip: Chip, src: u8) -> bool {
    match chip {
        Chip::Upd77p20 => src == NONE_OR_TRB,
        Chip::Upd77c25 => false,
    }
}

/// The data ROM cell at RP, with its bits at the top of a 16-bit register: 13 bits times 8, 16 bits as they are.
#[inline]
pub fn rom_output(chip: Chip, registers: &Registers, rom: &[u16]) -> u16 {
    let cell = i64::from(rom[usize::from(registers.rp)]);
    to_register(cell << (16 - chip.sizes().cell_bits))
}

/// What follows from having been a source.
pub fn after_reading(registers: &mut Registers, src: u8) {
    match src {
        DR => registers.sr |= status::RQM,
        SIM | SIL => registers.siack = false,
        _ => {}
    }
}
