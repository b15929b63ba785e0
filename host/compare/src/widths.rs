//! Fields of any width, most words with one that is too wide, and words of any width: refusals 11 and 4, by both.

use crate::chips;
use crate::proved;
use emulator::{Chip, CodeFields, JpFields, LdiFields, OpFields, Word};
use random::Random;

const EACH: u64 = 500_000;

pub fn compare(chip: Chip, seed: u64) -> Result<u64, String> {
    let mut random = Random::new(seed);
    let mut met = [0u64; 12];
    let name = chips::name(chip);
    for _ in 0..EACH {
        let word = any_fields(chip, &mut random);
        let (proved, second) = (proved::build(chip, &word), emulator::build_on(chip, &word));
        if proved != second {
            return Err(format!("{word:X?} of the {name} is built differently: {proved:X?} proved, {second:X?} second"));
        }
        met[usize::from(proved.err().unwrap_or(0))] += 1;
        let bits = random.next() as u32;
        let (proved, second) = (proved::take_apart(chip, bits), emulator::take_apart_on(chip, bits));
        if proved != second {
            return Err(format!("{bits:X}H of the {name} is taken apart differently: {proved:X?} proved, {second:X?} second"));
        }
        met[usize::from(proved.err().unwrap_or(0))] += 1;
    }
    if met[0] == 0 || met[4] == 0 || met[11] == 0 {
        return Err(format!("refusals 0, 4 and 11 of the {name} were met {}, {} and {} times", met[0], met[4], met[11]));
    }
    Ok(2 * EACH)
}

/// Each field is of any width one time in twelve.
fn any_fields(chip: Chip, random: &mut Random) -> Word {
    let row_bits = chip.sizes().ram.ilog2() - 4;
    let op = OpFields {
        psel: narrow(random, 2),
        alu: narrow(random, 4),
        asl: narrow(random, 1),
        dpl: narrow(random, 2),
        dphm: narrow(random, row_bits),
        rpdcr: narrow(random, 1),
        src: narrow(random, 4),
        dst: narrow(random, 4),
    };
    match (random.below(4), chip) {
        (0, _) => Word::Op(op),
        (1, _) => Word::Rt(op),
        (2, Chip::Upd77p20) => {
            Word::Jp(JpFields { brch: narrow(random, 3), cnd: narrow(random, 5), na: wide(random, 9), spare: narrow(random, 4) })
        }
        (2, Chip::Upd77c25) => Word::JpCode(CodeFields { code: wide(random, 9), na: wide(random, 11), spare: narrow(random, 2) }),
        (_, Chip::Upd77p20) => Word::Ldi(LdiFields { id: random.word(), spare: narrow(random, 1), dst: op.dst }),
        (_, Chip::Upd77c25) => Word::Ldi(LdiFields { id: random.word(), spare: narrow(random, 2), dst: op.dst }),
    }
}

fn narrow(random: &mut Random, bits: u32) -> u8 {
    if random.one_in(12) {
        random.next() as u8
    } else {
        random.below(1 << bits) as u8
    }
}

fn wide(random: &mut Random, bits: u32) -> u16 {
    if random.one_in(12) {
        random.word()
    } else {
        random.below(1 << bits) as u16
    }
}
