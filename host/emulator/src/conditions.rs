//! What a jump can ask about, and the 32 conditions of the 77P20.

use crate::registers::Registers;
use crate::status;

#[derive(Clone, Copy, Debug, PartialEq, Eq)]
pub enum Asked {
    Ca,
    Cb,
    Za,
    Zb,
    Ova0,
    Ovb0,
    Ova1,
    Ovb1,
    Sa0,
    Sb0,
    Sa1,
    Sb1,
    LowDpIs0,
    LowDpIs15,
    Siack,
    Soack,
    Rqm,
}

/// The answer at this moment.
#[inline]
pub fn answer(registers: &Registers, asked: Asked) -> bool {
    let (a, b) = (&registers.flags_a, &registers.flags_b);
    let low_dp = registers.dp & 0x0f;
    match asked {
        Asked::Ca => a.c,
        Asked::Cb => b.c,
        Asked::Za => a.z,
        Asked::Zb => b.z,
        Asked::Ova0 => a.ov0,
        Asked::Ovb0 => b.ov0,
        Asked::Ova1 => a.ov1,
        Asked::Ovb1 => b.ov1,
        Asked::Sa0 => a.s0,
        Asked::Sb0 => b.s0,
        Asked::Sa1 => a.s1,
        Asked::Sb1 => b.s1,
        Asked::LowDpIs0 => low_dp == 0,
        Asked::LowDpIs15 => low_dp == 15,
        Asked::Siack => registers.siack,
        Asked::Soack => registers.soack,
        Asked::Rqm => registers.sr & status::RQM != 0,
    }
}

/// What condition `cnd` (0 to 31) of the 77P20 asks about, and the answer it wants. All but 24 and 25 run in pairs: the even one
/// wants "is 0", the odd one "is 1".
#[inline]
pub fn of_77p20(cnd: u8) -> (Asked, bool) {
    match cnd {
        24 => (Asked::LowDpIs0, true),
        25 => (Asked::LowDpIs15, true),
        _ => (asked_by_pair(cnd / 2), cnd % 2 == 1),
    }
}

#[inline]
fn asked_by_pair(pair: u8) -> Asked {
    match pair {
        0 => Asked::Ca,
        1 => Asked::Cb,
        2 => Asked::Za,
        3 => Asked::Zb,
        4 => Asked::Ova0,
        5 => Asked::Ovb0,
        6 => Asked::Ova1,
        7 => Asked::Ovb1,
        8 => Asked::Sa0,
        9 => Asked::Sb0,
        10 => Asked::Sa1,
        11 => Asked::Sb1,
        13 => Asked::Siack,
        14 => Asked::Soack,
        _ => Asked::Rqm,
    }
}
