//! The arithmetic through the event call: every value where there are few enough, else every pair of corner values and some
//! millions of random ones. Operands come from TR by the bus.

use crate::chip_values::CORNERS;
use crate::pair::{Difference, Pair};
use emulator::{Chip, Registers, Sizes};
use random::Random;

const RANDOM_PAIRS: u32 = 500_000;

/// One word at address 0, on registers that a caller prepares.
struct OneWord(Pair);

impl OneWord {
    /// Of the 77P20.
    fn new(word: u32) -> OneWord {
        OneWord::of(Chip::Upd77p20, word)
    }

    fn of(chip: Chip, word: u32) -> OneWord {
        OneWord(Pair::new(chip, &[word]))
    }

    fn on(&mut self, registers: Registers) -> Result<(), Box<Difference>> {
        self.0.registers = registers;
        self.0.event(0, 1).map(|_| ())
    }
}

/// An operation on A (ASL 0) or B with the operand that P-select names; the source is TR.
fn operation(alu: u32, asl: u32, psel: u32) -> u32 {
    psel << 19 | alu << 15 | asl << 14 | 3 << 4
}

/// A value and flags for both accumulators, and TR. The bits of `flags` are OV1, S1 and C of each, and the rest.
fn prepared(value: u16, tr: u16, flags: u64) -> Registers {
    let flag = |place: u32| flags >> place & 1 == 1;
    let of = |place: u32| emulator::Flags {
        ov1: flag(place),
        s1: flag(place + 1),
        c: flag(place + 2),
        z: flag(place + 3),
        s0: flag(place + 4),
        ov0: flag(place + 5),
    };
    Registers { a: value, b: value, tr, flags_a: of(0), flags_b: of(6), ..Registers::default() }
}

/// Operations that do not look at the operand, on A: every value with every OV1, S1 and carry.
fn one_operand(random: &mut Random) -> Result<u64, Box<Difference>> {
    let mut compared = 0;
    for alu in [0, 8, 9, 10, 11, 12, 13, 14, 15] {
        let mut word = OneWord::new(operation(alu, 0, 1));
        for value in 0..=u16::MAX {
            for chosen in 0..8 {
                // OV1 and S1 of A, C of B; the other flags at random.
                let flags = random.next() & !0b1_0000_0011 | chosen & 3 | (chosen & 4) << 6;
                word.on(prepared(value, value.rotate_left(3), flags))?;
                compared += 1;
            }
        }
    }
    Ok(compared)
}

fn two_operands(random: &mut Random) -> Result<u64, Box<Difference>> {
    let mut compared = 0;
    for alu in 1..=7 {
        for asl in 0..2 {
            let mut word = OneWord::new(operation(alu, asl, 1));
            for x in CORNERS {
                for y in CORNERS {
                    for flags in 0..512 {
                        word.on(prepared(x, y, flags))?;
                        compared += 1;
                    }
                }
            }
            for _ in 0..RANDOM_PAIRS {
                let (values, flags) = (random.next(), random.next());
                word.on(prepared(values as u16, (values >> 16) as u16, flags))?;
                compared += 1;
            }
        }
    }
    Ok(compared)
}

/// M and N, as OR with an A of 0 shows them.
fn products(random: &mut Random) -> Result<u64, Box<Difference>> {
    let (mut m, mut n) = (OneWord::new(operation(1, 0, 2)), OneWord::new(operation(1, 0, 3)));
    let mut both = |k: u16, l: u16| {
        let registers = Registers { k, l, ..Registers::default() };
        m.on(registers).and_then(|()| n.on(registers))
    };
    let mut compared = 0;
    for k in 0..=u16::MAX {
        for l in CORNERS {
            both(k, l)?;
            compared += 1;
        }
    }
    for _ in 0..4 * RANDOM_PAIRS {
        let inputs = random.next();
        both(inputs as u16, (inputs >> 16) as u16)?;
        compared += 1;
    }
    Ok(compared)
}

/// SIL to TR and TR to SOL: every value reversed, coming in and going out.
fn reversals() -> Result<u64, Box<Difference>> {
    let (mut coming_in, mut going_out) = (OneWord::new(12 << 4 | 3), OneWord::new(3 << 4 | 8));
    for x in 0..=u16::MAX {
        coming_in.on(Registers { si: x, ..Registers::default() })?;
        going_out.on(Registers { tr: x, ..Registers::default() })?;
    }
    Ok(2 << 16)
}

/// Every step of every pointer that fits. RPDCR is D8 on both chips, and DPL stands above DPH-M, whose lowest bit is D9.
fn pointers(chip: Chip) -> Result<u64, Box<Difference>> {
    let Sizes { words, cells, ram, .. } = chip.sizes();
    let mut compared = 0;
    let mut step = |word: &mut OneWord, registers: Registers| {
        compared += 1;
        word.on(registers)
    };
    let (mut nothing, mut rp_down) = (OneWord::of(chip, 0), OneWord::of(chip, 1 << 8));
    for pc in 0..words as u16 {
        step(&mut nothing, Registers { pc, ..Registers::default() })?;
    }
    for rp in 0..cells as u16 {
        step(&mut rp_down, Registers { rp, ..Registers::default() })?;
    }
    let rows = ram / 16;
    for moved in 0..4 * rows as u32 {
        let mut word = OneWord::of(chip, moved << 9);
        for dp in 0..ram as u16 {
            step(&mut word, Registers { dp, ..Registers::default() })?;
        }
    }
    Ok(compared)
}

/// What was compared, and how often.
pub fn compare(seed: u64) -> Result<Vec<(&'static str, u64)>, Box<Difference>> {
    let mut random = Random::new(seed);
    Ok(vec![
        ("one-operand operations (every value, OV1, S1 and carry)", one_operand(&mut random)?),
        ("two-operand operations", two_operands(&mut random)?),
        ("products, M and N", products(&mut random)?),
        ("reversals (every value)", reversals()?),
        ("pointer steps of the 77P20 (every pointer that fits)", pointers(Chip::Upd77p20)?),
        ("pointer steps of the 77C25 (every pointer that fits)", pointers(Chip::Upd77c25)?),
    ])
}
