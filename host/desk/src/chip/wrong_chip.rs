//! A program of one chip that was given to the other: what it shows itself by when a word of it is refused, so that the right chip can be named.

use crate::chip::device::Device;
use crate::chip::machine::Machine;
use crate::chip::mnemonics::{CALL, JUMP, JUMP_ON_CONDITION};
use crate::numbers;
use bemulatsho::{take_apart, Word};

/// Set in every JP and LDI word of the 77C25 and in no word of the 77P20.
const D23: u32 = 1 << 23;

/// What is to be said of a refusal of the word at PC, in brackets behind its meaning, if the program is probably one of the other chip.
pub fn perhaps(machine: &Machine, number: u8) -> Option<String> {
    let word = machine.word_at_pc();
    match (machine.device(), number) {
        (Device::Upd77p20, 4) if has_24_bits(word) => {
            Some(format!(" ({} has 24 bits: a program of the 77C25 stands behind `chip 77C25`)", numbers::word(word)))
        }
        (Device::Upd77c25, 8) if jumps_or_loads_on_the_77p20(word) && machine.program.iter().all(|word| word & D23 == 0) => {
            Some(" (no word has D23 set, as a jump or LDI of the 77C25 has: a program of the 77P20 stands behind `chip 77P20`)".to_string())
        }
        _ => None,
    }
}

/// Whether a word is too wide for the 77P20 and fits the 77C25.
fn has_24_bits(word: u32) -> bool {
    word & D23 != 0 && word < D23 << 1
}

/// The 77C25 has RT where the 77P20 has these.
fn jumps_or_loads_on_the_77p20(word: u32) -> bool {
    match take_apart(word) {
        Ok(Word::Jp(fields)) => matches!(fields.brch, JUMP_ON_CONDITION | JUMP | CALL),
        Ok(Word::Ldi(_)) => true,
        _ => false,
    }
}
