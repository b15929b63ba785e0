//! The host's accesses to DR and SR.

use crate::registers::Registers;
use crate::status::{DRC, DRS, RQM};

/// The byte of DR whose turn it is.
pub fn read_data(registers: &mut Registers) -> u16 {
    let byte = if high_byte_is_next(registers.sr) { registers.dr >> 8 } else { registers.dr & 0xff };
    registers.sr = after_access(registers.sr);
    byte
}

/// Puts a byte in DR where its turn is; the other byte stays.
pub fn write_data(registers: &mut Registers, byte: u16) {
    registers.dr = if high_byte_is_next(registers.sr) { (byte << 8) | (registers.dr & 0xff) } else { (registers.dr & 0xff00) | byte };
    registers.sr = after_access(registers.sr);
}

/// The high byte of SR.
pub fn read_status(registers: &Registers) -> u16 {
    registers.sr >> 8
}

fn high_byte_is_next(sr: u16) -> bool {
    sr & DRC == 0 && sr & DRS != 0
}

/// SR after a byte of data went either way.
fn after_access(sr: u16) -> u16 {
    let whole_words = sr & DRC == 0;
    if !whole_words {
        sr & !RQM
    } else if sr & DRS == 0 {
        sr | DRS
    } else {
        sr & !(DRS | RQM)
    }
}
