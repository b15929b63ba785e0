//! The registers, and whether what they hold fits them.

use crate::chip::{Chip, Sizes};
use crate::device::STACK;
use crate::status;

/// The flags of one accumulator.
#[derive(Clone, Copy, Debug, Default, PartialEq, Eq)]
pub struct Flags {
    pub s1: bool,
    pub s0: bool,
    pub c: bool,
    pub z: bool,
    pub ov1: bool,
    pub ov0: bool,
}

/// Every register of either chip. The fields are wider than some registers: a lent record may hold anything.
#[derive(Clone, Copy, Debug, Default, PartialEq, Eq)]
pub struct Registers {
    pub pc: u16,
    pub stack: [u16; STACK],
    pub depth: u8,
    pub a: u16,
    pub b: u16,
    pub k: u16,
    pub l: u16,
    pub tr: u16,
    /// The 77P20 has no such register, and neither reads nor changes it.
    pub trb: u16,
    pub dr: u16,
    pub si: u16,
    pub so: u16,
    pub dp: u16,
    pub rp: u16,
    pub sr: u16,
    pub flags_a: Flags,
    pub flags_b: Flags,
    pub siack: bool,
    pub soack: bool,
    pub sorq: bool,
}

impl Registers {
    /// Whether they fit the 77P20.
    pub fn fit(&self) -> bool {
        self.fit_on(Chip::Upd77p20)
    }

    /// False exactly when refusal 2 applies. Stack cells past the depth count too.
    #[inline]
    pub fn fit_on(&self, chip: Chip) -> bool {
        let Sizes { words, cells, ram, stack, .. } = chip.sizes();
        usize::from(self.pc) < words
            && self.stack.iter().all(|&cell| usize::from(cell) < words)
            && usize::from(self.dp) < ram
            && usize::from(self.rp) < cells
            && usize::from(self.depth) <= stack
            && self.sr & status::EMPTY == 0
    }
}
