//! Random programs of either chip.

use emulator::jump_codes::LISTED;
use emulator::{branch, Chip};
use random::Random;

const OP: u32 = 0b00;
const RT: u32 = 0b01;
const JP: u32 = 0b10;
const LDI: u32 = 0b11;

#[derive(Clone, Copy)]
enum Jump {
    Always,
    Call,
    When,
}

/// A word of the chip, of any row; one in two hundred is wider. In one word in twelve the unused bits are as they fall, else 0.
fn word(chip: Chip, random: &mut Random) -> u32 {
    let bits = chip.sizes().word_bits;
    let low = random.next() as u32 & ((1 << (bits - 2)) - 1);
    let worn = random.one_in(12);
    let row = |row: u32, fields: u32| row << (bits - 2) | fields;
    match random.below(200) {
        0 => (1 << bits) + random.below((1u32 << bits).wrapping_neg()),
        1..=99 => row(OP, with_source(chip, low)),
        // RT and calls are rarer than there is room on the stack.
        100..=114 => row(RT, with_source(chip, low)),
        115..=129 => row(JP, jump(chip, random, Jump::Call, low, worn)),
        130..=139 => row(JP, jump(chip, random, Jump::Always, low, worn)),
        140..=164 => row(JP, jump(chip, random, Jump::When, low, worn)),
        165..=169 => row(JP, low),
        170..=195 => row(LDI, if worn { low } else { low & !unused_of_ldi(chip) }),
        _ => random.next() as u32 & ((1 << bits) - 1),
    }
}

/// On the 77P20 mostly another source than none, so that runs go on.
fn with_source(chip: Chip, low: u32) -> u32 {
    match chip {
        Chip::Upd77p20 => low | (u32::from(low & 0xf0 == 0) << 4),
        Chip::Upd77c25 => low,
    }
}

/// The fields of a jump that the chip knows. What is not used of them: the spare bits, and CND of a jump or a call of the 77P20.
fn jump(chip: Chip, random: &mut Random, jump: Jump, low: u32, worn: bool) -> u32 {
    let (code, place, unused) = match (chip, jump) {
        (Chip::Upd77p20, Jump::Always) => (u32::from(branch::JUMP), 18, 0x3_e00f),
        (Chip::Upd77p20, Jump::Call) => (u32::from(branch::CALL), 18, 0x3_e00f),
        (Chip::Upd77p20, Jump::When) => (u32::from(branch::JUMP_ON_CONDITION), 18, 0xf),
        (Chip::Upd77c25, Jump::Always) => (u32::from(LISTED[0].code), 13, 3),
        (Chip::Upd77c25, Jump::Call) => (u32::from(LISTED[1].code), 13, 3),
        (Chip::Upd77c25, Jump::When) => (u32::from(LISTED[2 + random.place(LISTED.len() - 2)].code), 13, 3),
    };
    let rest = low & ((1 << place) - 1);
    code << place | if worn { rest } else { rest & !unused }
}

fn unused_of_ldi(chip: Chip) -> u32 {
    match chip {
        Chip::Upd77p20 => 0x10,
        Chip::Upd77c25 => 0x30,
    }
}

pub fn program(chip: Chip, random: &mut Random) -> Vec<u32> {
    (0..chip.sizes().words).map(|_| word(chip, random)).collect()
}
