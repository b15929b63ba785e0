//! What the chips differ in, as events are tried on them.

use bemulatsho::{upd77c25, Registers, Reply};
use random::Random;

pub trait Chip {
    type Record: Copy;
    const WORDS: usize;
    const CELLS: usize;
    const RAM: usize;
    /// Bits of a word that may be 1: all, those of the chip's words, and those that a jump or a call on no condition may have.
    const BITS: [u32; 3];
    /// What an event is answered.
    const NUMBERS: &'static [u8];

    fn record(registers: Registers, random: &mut Random) -> Self::Record;

    fn event(registers: &mut Self::Record, program: &[u32], rom: &[u16], ram: &mut [u16], kind: u32, value: u32) -> Reply;
}

pub struct Upd77p20;

impl Chip for Upd77p20 {
    type Record = Registers;
    const WORDS: usize = bemulatsho::WORDS;
    const CELLS: usize = bemulatsho::CELLS;
    const RAM: usize = bemulatsho::RAM;
    const BITS: [u32; 3] = [u32::MAX, 0x7f_ffff, 0x7c_1ff0];
    const NUMBERS: &'static [u8] = &[0, 1, 2, 3, 4, 5, 6, 7, 8, 9, 10, 18];

    fn record(registers: Registers, _: &mut Random) -> Registers {
        registers
    }

    fn event(registers: &mut Registers, program: &[u32], rom: &[u16], ram: &mut [u16], kind: u32, value: u32) -> Reply {
        bemulatsho::event(registers, program, rom, ram, kind, value)
    }
}

pub struct Upd77c25;

impl Chip for Upd77c25 {
    type Record = upd77c25::Registers;
    const WORDS: usize = upd77c25::WORDS;
    const CELLS: usize = upd77c25::CELLS;
    const RAM: usize = upd77c25::RAM;
    const BITS: [u32; 3] = [u32::MAX, 0xff_ffff, 0xf8_1ffc];
    /// Neither 6 nor 7.
    const NUMBERS: &'static [u8] = &[0, 1, 2, 3, 4, 5, 8, 9, 10, 18];

    fn record(registers: Registers, random: &mut Random) -> upd77c25::Registers {
        upd77c25::Registers { registers, trb: random.word() }
    }

    fn event(registers: &mut upd77c25::Registers, program: &[u32], rom: &[u16], ram: &mut [u16], kind: u32, value: u32) -> Reply {
        upd77c25::event(registers, program, rom, ram, kind, value)
    }
}
