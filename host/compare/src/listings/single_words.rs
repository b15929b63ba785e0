//! The one-word examples of 4.1, 4.2 and 4.3.

use super::arithmetic::{coefficient, fits, kept, product, signed};
use super::line::{ours, printed, Line};
use super::running::{Run, RUN};
use crate::chip_values::ChipValues;
use emulator::{Flags, Registers};
use random::Random;

const OP_RT: [Line; 1] = [printed(686, 0x3293fb, "OP MOV @KLR,MEM ADD ACCA,M DPINC M1 RPDEC RET")];

/// The manual gives OVFLOW no address; it is 2 here.
const JP: [Line; 3] = [printed(988, 0x4a2020, "JSA0 OVFLOW"), ours(0x000000, "OP"), ours(0x000000, "OVFLOW: OP")];

const LDI: [Line; 1] = [printed(1084, 0x624681, "LDI @A,1234H")];

/// Every part of the word of Figure 4.2 works in one cycle, each from what stood before the word.
pub fn op_rt() -> Result<String, String> {
    let mut random = Random::new(0x41);
    for state in 0..100 {
        let step = format!("state {state}");
        let mut run = Run::new("4.1, OP/RT example", &OP_RT)?;
        run.pair.rom.iter_mut().for_each(|cell| *cell = random.cell());
        run.pair.ram.iter_mut().for_each(|cell| *cell = random.word());
        let before = Registers {
            stack: [random.word() % 512, 0, 0, 0],
            depth: 1,
            a: random.word(),
            k: random.word(),
            l: random.word(),
            dp: random.word() % 128,
            rp: random.word() % 512,
            // With OV1 at 0 S1 follows S0, and OV1 follows OV0.
            flags_a: Flags { ov1: false, ..random.flags() },
            flags_b: random.flags(),
            ..Registers::default()
        };
        run.pair.registers = before;
        run.event(&step, RUN, 1)?;

        let m = product(signed(before.k), signed(before.l));
        let sum = signed(before.a) + m;
        let (sign, overflow) = (signed(kept(sum)) < 0, !fits(sum));
        let carry = i64::from(before.a) + i64::from(kept(m)) > 65535;
        let (row, column) = (before.dp / 16, before.dp % 16);
        let after = Registers {
            pc: before.stack[0],
            depth: 0,
            a: kept(sum),
            k: run.pair.ram[usize::from(before.dp)],
            l: kept(coefficient(run.pair.rom[usize::from(before.rp)])),
            dp: (row ^ 1) * 16 + (column + 1) % 16,
            rp: (before.rp + 511) % 512,
            flags_a: Flags { s1: sign, s0: sign, c: carry, z: kept(sum) == 0, ov1: overflow, ov0: overflow },
            ..before
        };
        run.same(&step, "registers", after, run.pair.registers)?;
    }
    Ok("4.1, OP/RT example: one word moves, multiplies, adds, steps both pointers and returns, from 100 states".to_string())
}

pub fn jp() -> Result<String, String> {
    for (s0, step, pc) in [(false, "SA0 is 0", 1), (true, "SA0 is 1", 2)] {
        let mut run = Run::new("4.2, JP example", &JP)?;
        run.pair.registers.flags_a.s0 = s0;
        let after = Registers { pc, ..run.pair.registers };
        run.event(step, RUN, 1)?;
        run.same(step, "registers", after, run.pair.registers)?;
    }
    Ok("4.2, JP example: jumps to OVFLOW when SA0 is 1 and steps when it is 0".to_string())
}

pub fn ldi() -> Result<String, String> {
    let mut run = Run::new("4.3, LDI example", &LDI)?;
    run.pair.registers.flags_a = Flags { s1: true, s0: true, c: true, z: true, ov1: true, ov0: true };
    let after = Registers { pc: 1, a: 0x1234, ..run.pair.registers };
    run.event("the only word", RUN, 1)?;
    run.same("the only word", "registers", after, run.pair.registers)?;
    Ok("4.3, LDI example: 624681H loads A with 1234H and leaves the flags".to_string())
}
