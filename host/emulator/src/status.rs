//! The bits of SR that something acts on, and which of its bits a program can load.

pub const RQM: u16 = 1 << 15;
pub const DRS: u16 = 1 << 12;
pub const DRC: u16 = 1 << 10;
pub const EI: u16 = 1 << 7;

/// Bits 6 to 2, which hold nothing.
pub const EMPTY: u16 = 0b0111_1100;

/// What SR keeps when it is the destination: bits 15, 12 and 6 to 2.
pub const KEPT: u16 = RQM | DRS | EMPTY;

/// SR after the bus was sent to it.
pub fn loaded(sr: u16, bus: u16) -> u16 {
    (sr & KEPT) | (bus & !KEPT)
}
