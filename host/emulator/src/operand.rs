//! The ALU's second operand, by P-select.

use crate::multiplier::{m, n};
use crate::registers::Registers;

pub const RAM: u8 = 0;
pub const BUS: u8 = 1;
pub const M: u8 = 2;

#[inline]
pub fn value(registers: &Registers, ram: &[u16], bus: u16, psel: u8) -> u16 {
    match psel {
        RAM => ram[usize::from(registers.dp)],
        BUS => bus,
        M => m(registers.k, registers.l),
        _ => n(registers.k, registers.l),
    }
}
