//! One event from outside, and its reply.

use crate::chip::{Chip, Sizes};
use crate::host;
use crate::refusal;
use crate::registers::{Flags, Registers};
use crate::stack;
use crate::status::EI;
use crate::step::{step_with, ROW_LAST};

pub const RUN: u32 = 0;
pub const HOST_READS_DATA: u32 = 1;
pub const HOST_WRITES_DATA: u32 = 2;
pub const HOST_READS_STATUS: u32 = 3;
pub const SERIAL_WORD_IN: u32 = 4;
pub const SERIAL_WORD_OUT: u32 = 5;
pub const INTERRUPT_EDGE: u32 = 6;
pub const RESET: u32 = 7;

const INTERRUPT_ADDRESS: u16 = 0x100;

/// The NOP and the jump that the chip puts in for an accepted interrupt; neither is fetched.
const INTERRUPT_WORDS: u16 = 2;

/// A reply: 0 or the refusal number, the words done, and the value handed out.
#[derive(Clone, Copy, Debug, Default, PartialEq, Eq)]
pub struct Reply {
    pub number: u8,
    pub words: u16,
    pub value: u16,
}

impl Reply {
    const DONE: Reply = Reply { number: 0, words: 0, value: 0 };

    fn handing(value: u16) -> Reply {
        Reply { value, ..Reply::DONE }
    }

    fn refusing(number: u8) -> Reply {
        Reply { number, ..Reply::DONE }
    }
}

/// `event_on` the 77P20.
pub fn event(registers: &mut Registers, program: &[u32], rom: &[u16], ram: &mut [u16], kind: u32, value: u32) -> Reply {
    event_on(Chip::Upd77p20, registers, program, rom, ram, kind, value)
}

/// One call: one event. Registers and RAM are changed in place; what is refused leaves both as they were before it.
pub fn event_on(chip: Chip, registers: &mut Registers, program: &[u32], rom: &[u16], ram: &mut [u16], kind: u32, value: u32) -> Reply {
    event_with::<ROW_LAST>(chip, registers, program, rom, ram, kind, value)
}

/// `event_on` with a time for DPH-M.
#[inline]
pub(crate) fn event_with<const ROW: bool>(
    chip: Chip,
    registers: &mut Registers,
    program: &[u32],
    rom: &[u16],
    ram: &mut [u16],
    kind: u32,
    value: u32,
) -> Reply {
    let Sizes { words, cells, ram: ram_cells, .. } = chip.sizes();
    if program.len() != words || rom.len() != cells || ram.len() != ram_cells {
        return Reply::refusing(refusal::LENGTH);
    }
    if !registers.fit_on(chip) {
        return Reply::refusing(refusal::REGISTER_TOO_WIDE);
    }
    if kind > RESET || value > highest_value(kind) {
        return Reply::refusing(refusal::EVENT_NOT_ALLOWED);
    }
    let value = value as u16;
    match kind {
        RUN => run::<ROW>(chip, registers, program, rom, ram, value),
        HOST_READS_DATA => Reply::handing(host::read_data(registers)),
        HOST_WRITES_DATA => {
            host::write_data(registers, value);
            Reply::DONE
        }
        HOST_READS_STATUS => Reply::handing(host::read_status(registers)),
        SERIAL_WORD_IN => serial_word_in(registers, value),
        SERIAL_WORD_OUT => serial_word_out(registers),
        INTERRUPT_EDGE => interrupt_edge(registers),
        _ => reset(registers),
    }
}

fn highest_value(kind: u32) -> u32 {
    match kind {
        RUN | SERIAL_WORD_IN => 65535,
        HOST_WRITES_DATA => 255,
        _ => 0,
    }
}

/// Runs `count` words, or those before the first refused one.
fn run<const ROW: bool>(chip: Chip, registers: &mut Registers, program: &[u32], rom: &[u16], ram: &mut [u16], count: u16) -> Reply {
    for done in 0..count {
        if let Err(number) = step_with::<ROW>(chip, registers, program, rom, ram) {
            return Reply { number, words: done, value: 0 };
        }
    }
    Reply { words: count, ..Reply::DONE }
}

fn serial_word_in(registers: &mut Registers, word: u16) -> Reply {
    registers.si = word;
    registers.siack = true;
    Reply::DONE
}

fn serial_word_out(registers: &mut Registers) -> Reply {
    if !registers.sorq {
        return Reply::refusing(refusal::NOTHING_TO_SEND);
    }
    registers.sorq = false;
    registers.soack = true;
    Reply::handing(registers.so)
}

/// Unlike a call, an interrupt pushes PC itself: the word there has not run yet.
fn interrupt_edge(registers: &mut Registers) -> Reply {
    if registers.sr & EI == 0 {
        return Reply::DONE;
    }
    if stack::is_full(registers) {
        return Reply::refusing(refusal::STACK_FULL);
    }
    stack::push(registers, registers.pc);
    registers.pc = INTERRUPT_ADDRESS;
    registers.sr &= !EI;
    Reply { words: INTERRUPT_WORDS, ..Reply::DONE }
}

/// The stack cells and all registers not named here stay.
fn reset(registers: &mut Registers) -> Reply {
    registers.pc = 0;
    registers.depth = 0;
    registers.flags_a = Flags::default();
    registers.flags_b = Flags::default();
    registers.sr = 0;
    registers.sorq = false;
    registers.siack = false;
    registers.soack = false;
    Reply::DONE
}
