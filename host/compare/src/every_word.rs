//! Every word of a chip once: run from a random state, taken apart, and built again.

use crate::chips;
use crate::pair::Pair;
use crate::proved;
use crate::states;
use emulator::refusal::{CELL_TOO_WIDE, NO_SUCH_BRANCH, SOURCE_MISSING, UNUSED_BITS_SET, WORD_TOO_WIDE};
use emulator::Chip;
use random::Random;

fn apart_and_together(chip: Chip, word: u32) -> Result<(), String> {
    let (proved, second) = (proved::take_apart(chip, word), emulator::take_apart_on(chip, word));
    if proved != second {
        let chip = chips::name(chip);
        return Err(format!("word {word:06X}H of the {chip} is taken apart differently: {proved:X?} proved, {second:X?} second"));
    }
    let (proved, second) = (proved.and_then(|w| proved::build(chip, &w)), second.and_then(|w| emulator::build_on(chip, &w)));
    if (proved, second) != (Ok(word), Ok(word)) {
        let chip = chips::name(chip);
        return Err(format!("word {word:06X}H of the {chip} is not built again: {proved:X?} proved, {second:X?} second"));
    }
    Ok(())
}

/// How many words are refused with the numbers that no state has a say in, from the widths of the fields: docs/EVIDENCE.md, "Words with unused
/// bits" and "The uPD77C25", has them one by one.
fn by_hand(chip: Chip) -> Vec<(u8, u64)> {
    match chip {
        Chip::Upd77p20 => vec![
            (WORD_TOO_WIDE, 0),
            (NO_SUCH_BRANCH, 5 * (1 << 18)),
            (UNUSED_BITS_SET, 2 * ((1 << 18) - (1 << 9)) + (1 << 14) * 15 + (1 << 20)),
        ],
        Chip::Upd77c25 => vec![
            (WORD_TOO_WIDE, 0),
            (NO_SUCH_BRANCH, (512 - 36) * (1 << 13)),
            (UNUSED_BITS_SET, 36 * (1 << 11) * 3 + (1 << 20) * 3),
            (SOURCE_MISSING, 0),
            (CELL_TOO_WIDE, 0),
        ],
    }
}

/// Each word once; how many there are, and how many of them were refused with a number that was worked out by hand.
pub fn compare(chip: Chip, seed: u64) -> Result<(u64, String), String> {
    let mut random = Random::new(seed);
    let mut refused = [0u64; 19];
    let registers = states::fitting_registers(chip, &mut random);
    let program = vec![0; chip.sizes().words];
    let mut pair = Pair::lent(chip, registers, program, states::rom(chip, &mut random), states::ram(chip, &mut random));
    let words = 1 << chip.sizes().word_bits;
    for word in 0..words {
        pair.registers = states::fitting_registers(chip, &mut random);
        let pc = usize::from(pair.registers.pc);
        pair.program[pc] = word;
        let reply = pair.event(0, 1).map_err(|difference| difference.to_string())?;
        refused[usize::from(reply.number)] += 1;
        apart_and_together(chip, word)?;
    }
    let mut told = Vec::new();
    for (number, expected) in by_hand(chip) {
        let found = refused[usize::from(number)];
        if found != expected {
            return Err(format!("{found} of all words of the {} were refused with {number}: expected {expected}", chips::name(chip)));
        }
        told.push(format!("{found} with {number}"));
    }
    Ok((u64::from(words), told.join(", ")))
}
