//! The machine record, field by field as the library has it.

use std::mem::{offset_of, size_of};

#[repr(C)]
#[derive(Clone, Copy, Debug, Default, PartialEq, Eq)]
pub struct Flags {
    pub s1: bool,
    pub s0: bool,
    pub c: bool,
    pub z: bool,
    pub ov1: bool,
    pub ov0: bool,
}

#[repr(C)]
#[derive(Clone, Copy, Debug, Default, PartialEq, Eq)]
pub struct BothFlags {
    pub a: Flags,
    pub b: Flags,
}

/// Any value may stand in any field: a record that does not fit is refused by 2.
#[repr(C)]
#[derive(Clone, Copy, Debug, Default, PartialEq, Eq)]
pub struct Registers {
    pub pc: u16,
    pub stack: [u16; 4],
    pub flags: BothFlags,
    pub si: u16,
    pub siack: bool,
    pub depth: u8,
    pub a: u16,
    pub b: u16,
    pub k: u16,
    pub l: u16,
    pub tr: u16,
    pub dr: u16,
    pub so: u16,
    pub dp: u16,
    pub rp: u16,
    pub sr: u16,
    pub soack: bool,
    pub sorq: bool,
}

// The layout of the C header.
const _: () = {
    assert!(size_of::<Flags>() == 6 && size_of::<BothFlags>() == 12 && size_of::<Registers>() == 48);
    assert!(offset_of!(Registers, flags) == 10 && offset_of!(Registers, si) == 22 && offset_of!(Registers, depth) == 25);
    assert!(offset_of!(Registers, a) == 26 && offset_of!(Registers, sr) == 44 && offset_of!(Registers, sorq) == 47);
};
