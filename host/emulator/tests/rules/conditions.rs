//! Each of the 32 conditions, alone against all others.

use crate::assemble::{jp, JUMP_ON_CONDITION};
use crate::machine::{recognisable, recognisable_on, Machine, NEXT, P20};
use emulator::{Chip, Flags};

const TARGET: u16 = 0x1ce;

/// Every flag that a condition asks about is `value`.
pub fn all(chip: Chip, value: bool) -> Machine {
    let flags = Flags { s1: value, s0: value, c: value, z: value, ov1: value, ov0: value };
    let mut machine = recognisable_on(chip);
    machine.registers.flags_a = flags;
    machine.registers.flags_b = flags;
    machine.registers.siack = value;
    machine.registers.soack = value;
    machine.registers.sr = if value { 0x8000 } else { 0x7f83 };
    machine
}

/// Sets the flag that conditions `cnd` and `cnd + 1` ask about.
fn set(machine: &mut Machine, cnd: u32, value: bool) {
    let r = &mut machine.registers;
    match cnd {
        0 => r.flags_a.c = value,
        2 => r.flags_b.c = value,
        4 => r.flags_a.z = value,
        6 => r.flags_b.z = value,
        8 => r.flags_a.ov0 = value,
        10 => r.flags_b.ov0 = value,
        12 => r.flags_a.ov1 = value,
        14 => r.flags_b.ov1 = value,
        16 => r.flags_a.s0 = value,
        18 => r.flags_b.s0 = value,
        20 => r.flags_a.s1 = value,
        22 => r.flags_b.s1 = value,
        26 => r.siack = value,
        28 => r.soack = value,
        30 => r.sr = if value { r.sr | 0x8000 } else { r.sr & 0x7fff },
        _ => unreachable!(),
    }
}

#[track_caller]
fn jumps(machine: Machine, cnd: u32, taken: bool) {
    let word = jp(JUMP_ON_CONDITION, cnd, TARGET.into());
    machine.word_changes(word, |m| m.registers.pc = if taken { TARGET } else { NEXT });
}

#[test]
fn pairs_ask_for_0_then_for_1() {
    for first in (0..24).step_by(2).chain((26..32).step_by(2)) {
        for value in [false, true] {
            let mut machine = all(P20, !value);
            set(&mut machine, first, value);
            jumps(machine.clone(), first, !value);
            jumps(machine, first + 1, value);
        }
    }
}

#[test]
fn low_dp_is_0_or_15() {
    for dp in 0..128 {
        let mut machine = recognisable();
        machine.registers.dp = dp;
        jumps(machine.clone(), 24, [0x00, 0x10, 0x20, 0x30, 0x40, 0x50, 0x60, 0x70].contains(&dp));
        jumps(machine, 25, [0x0f, 0x1f, 0x2f, 0x3f, 0x4f, 0x5f, 0x6f, 0x7f].contains(&dp));
    }
}
