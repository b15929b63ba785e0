//! Registers at random.

use emulator::{Flags, Registers};
use random::Random;

/// Registers that pass refusal 2.
pub fn fitting_registers(random: &mut Random) -> Registers {
    Registers {
        pc: random.word() % 512,
        stack: [0; 4].map(|_| random.word() % 512),
        depth: random.below(5) as u8,
        a: random.word(),
        b: random.word(),
        k: random.word(),
        l: random.word(),
        tr: random.word(),
        trb: random.word(),
        dr: random.word(),
        si: random.word(),
        so: random.word(),
        dp: random.word() % 128,
        rp: random.word() % 512,
        sr: random.word() & 0xff83,
        flags_a: flags(random),
        flags_b: flags(random),
        siack: random.flag(),
        soack: random.flag(),
        sorq: random.flag(),
    }
}

fn flags(random: &mut Random) -> Flags {
    Flags { s1: random.flag(), s0: random.flag(), c: random.flag(), z: random.flag(), ov1: random.flag(), ov0: random.flag() }
}
