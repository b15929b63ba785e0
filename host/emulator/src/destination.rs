//! The destinations, and what a bus value changes there.

use crate::bits::reversed;
use crate::bus::rom_output;
use crate::chip::Chip;
use crate::registers::Registers;
use crate::status;

pub const NONE: u8 = 0;
pub const A: u8 = 1;
pub const B: u8 = 2;
pub const TR: u8 = 3;
pub const DP: u8 = 4;
pub const RP: u8 = 5;
pub const DR: u8 = 6;
pub const SR: u8 = 7;
pub const SOL: u8 = 8;
pub const SOM: u8 = 9;
pub const K: u8 = 10;
pub const KLR: u8 = 11;
pub const KLM: u8 = 12;
pub const L: u8 = 13;
/// None on the 77P20, TRB on the 77C25.
pub const NONE_OR_TRB: u8 = 14;
pub const MEM: u8 = 15;

/// Sends the bus to a destination. RP and DP must still be those from before the word.
#[inline]
pub fn store(chip: Chip, registers: &mut Registers, rom: &[u16], ram: &mut [u16], dst: u8, bus: u16) {
    match dst {
        A => registers.a = bus,
        B => registers.b = bus,
        TR => registers.tr = bus,
        DP => registers.dp = low_bits(bus, chip.sizes().ram),
        RP => registers.rp = low_bits(bus, chip.sizes().cells),
        DR => {
            registers.dr = bus;
            registers.sr |= status::RQM;
        }
        SR => registers.sr = status::loaded(registers.sr, bus),
        SOL => send(registers, reversed(bus)),
        SOM => send(registers, bus),
        K => registers.k = bus,
        KLR => {
            registers.k = bus;
            registers.l = rom_output(chip, registers, rom);
        }
        KLM => {
            registers.k = ram[usize::from(registers.dp | 0x40)];
            registers.l = bus;
        }
        L => registers.l = bus,
        NONE_OR_TRB => match chip {
            Chip::Upd77p20 => {}
            Chip::Upd77c25 => registers.trb = bus,
        },
        MEM => ram[usize::from(registers.dp)] = bus,
        _ => {}
    }
}

/// Whether nothing receives the bus.
#[inline]
pub fn is_none(chip: Chip, dst: u8) -> bool {
    match chip {
        Chip::Upd77p20 => dst == NONE || dst == NONE_OR_TRB,
        Chip::Upd77c25 => dst == NONE,
    }
}

/// What a pointer keeps of the bus, when it numbers `count` cells, a power of two.
#[inline]
fn low_bits(bus: u16, count: usize) -> u16 {
    bus & (count - 1) as u16
}

/// A word for the serial line.
fn send(registers: &mut Registers, word: u16) {
    registers.so = word;
    registers.sorq = true;
    registers.soack = false;
}
