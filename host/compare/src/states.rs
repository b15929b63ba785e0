//! Random machines of either chip: records that fit, records that do not, data ROM and RAM.

use crate::chip_values::ChipValues;
use emulator::{Chip, Registers, Sizes};
use random::Random;

/// The place of one of so many words or cells, often the last or the first.
fn address(random: &mut Random, count: usize) -> u16 {
    match random.below(8) {
        0 => (count - 1) as u16,
        1 => 0,
        _ => random.place(count) as u16,
    }
}

/// A record that passes refusal 2.
pub fn fitting_registers(chip: Chip, random: &mut Random) -> Registers {
    let Sizes { words, cells, ram, .. } = chip.sizes();
    Registers {
        pc: address(random, words),
        stack: std::array::from_fn(|_| address(random, words)),
        depth: random.below(5) as u8,
        a: random.register(),
        b: random.register(),
        k: random.register(),
        l: random.register(),
        tr: random.register(),
        trb: match chip {
            Chip::Upd77p20 => 0,
            Chip::Upd77c25 => random.register(),
        },
        dr: random.register(),
        si: random.register(),
        so: random.register(),
        dp: random.place(ram) as u16,
        rp: address(random, cells),
        sr: random.next() as u16 & 0xff83,
        flags_a: random.flags(),
        flags_b: random.flags(),
        siack: random.flag(),
        soack: random.flag(),
        sorq: random.flag(),
    }
}

/// The same record with one thing in it that refusal 2 turns away.
pub fn damaged(chip: Chip, random: &mut Random, registers: &Registers) -> Registers {
    let Sizes { words, cells, ram, .. } = chip.sizes();
    let mut r = *registers;
    let too_wide = |random: &mut Random, limit: usize| (limit + random.place(65536 - limit)) as u16;
    match random.below(9) {
        0 => r.pc = too_wide(random, words),
        1 => r.dp = too_wide(random, ram),
        2 => r.rp = too_wide(random, cells),
        3 => r.depth = 5 + random.below(251) as u8,
        4 => r.sr |= 4 << random.below(5),
        cell => r.stack[cell as usize - 5] = too_wide(random, words),
    }
    r
}

pub fn ram(chip: Chip, random: &mut Random) -> Vec<u16> {
    (0..chip.sizes().ram).map(|_| random.register()).collect()
}

pub fn rom(chip: Chip, random: &mut Random) -> Vec<u16> {
    (0..chip.sizes().cells).map(|_| cell(chip, random)).collect()
}

/// Of the 77P20 one cell in forty is wider than 13 bits, and refused when it is used.
fn cell(chip: Chip, random: &mut Random) -> u16 {
    let cell = random.register();
    match chip {
        Chip::Upd77p20 if random.one_in(40) => cell | 0x2000,
        Chip::Upd77p20 => cell & 0x1fff,
        Chip::Upd77c25 => cell,
    }
}
