//! A machine of either chip whose registers and cells all hold something recognisable. What names no chip is about the 77P20.

use crate::chip_77c25::machine as large;
use emulator::{event, event_on, Chip, Flags, Registers, Reply, CELLS, RAM, WORDS};

pub const P20: Chip = Chip::Upd77p20;
pub const C25: Chip = Chip::Upd77c25;
pub const CHIPS: [Chip; 2] = [P20, C25];

#[derive(Clone, Debug, PartialEq, Eq)]
pub struct Machine {
    pub chip: Chip,
    pub registers: Registers,
    pub program: Vec<u32>,
    pub rom: Vec<u16>,
    pub ram: Vec<u16>,
}

/// Where a recognisable machine stands, and the word after that.
pub const HERE: u16 = 0x20;
pub const NEXT: u16 = 0x21;

pub fn here(chip: Chip) -> u16 {
    match chip {
        Chip::Upd77p20 => HERE,
        Chip::Upd77c25 => large::HERE,
    }
}

pub fn next(chip: Chip) -> u16 {
    match chip {
        Chip::Upd77p20 => NEXT,
        Chip::Upd77c25 => large::NEXT,
    }
}

pub fn recognisable_on(chip: Chip) -> Machine {
    match chip {
        Chip::Upd77p20 => recognisable(),
        Chip::Upd77c25 => large::recognisable(),
    }
}

/// RAM cell n holds 4000H + n, data ROM cell n holds 1000H + n, every program word is 0.
pub fn recognisable() -> Machine {
    Machine {
        chip: P20,
        registers: Registers {
            pc: HERE,
            stack: [0x111, 0x0a2, 0x1b3, 0x0c4],
            depth: 2,
            a: 0x1234,
            b: 0x5678,
            k: 0x0301,
            l: 0x0500,
            tr: 0x7a7a,
            trb: 0x7b7b,
            dr: 0xd00d,
            si: 0x8003,
            so: 0x50f0,
            dp: 0x25,
            rp: 0x1a7,
            sr: 0x0000,
            flags_a: Flags { s1: true, s0: false, c: false, z: true, ov1: true, ov0: false },
            flags_b: Flags { s1: false, s0: true, c: true, z: false, ov1: false, ov0: true },
            siack: true,
            soack: true,
            sorq: false,
        },
        program: vec![0; WORDS],
        rom: (0x1000..0x1200).collect(),
        ram: (0x4000..0x4080).collect(),
    }
}

/// All registers, flags and cells 0.
pub fn empty() -> Machine {
    Machine { chip: P20, registers: Registers::default(), program: vec![0; WORDS], rom: vec![0; CELLS], ram: vec![0; RAM] }
}

pub const DONE: Reply = Reply { number: 0, words: 0, value: 0 };

/// The reply to an accepted interrupt.
pub const ACCEPTED: Reply = Reply { number: 0, words: 2, value: 0 };

impl Machine {
    pub fn event(&mut self, kind: u32, value: u32) -> Reply {
        let Machine { chip, registers, program, rom, ram } = self;
        match chip {
            // The function that takes no chip.
            Chip::Upd77p20 => event(registers, program, rom, ram, kind, value),
            Chip::Upd77c25 => event_on(C25, registers, program, rom, ram, kind, value),
        }
    }

    /// Puts one word at PC and runs it.
    pub fn run_word(&mut self, word: u32) -> Reply {
        self.program[usize::from(self.registers.pc)] = word;
        self.event(0, 1)
    }

    /// Puts one word at PC, runs it, and claims that `change` and nothing else has happened.
    #[track_caller]
    pub fn word_changes(mut self, word: u32, change: impl FnOnce(&mut Machine)) {
        self.program[usize::from(self.registers.pc)] = word;
        self.event_replies(0, 1, Reply { words: 1, ..DONE }, change);
    }

    /// Puts one word at PC, runs it, and claims that it is refused with `number` and nothing has happened.
    #[track_caller]
    pub fn word_is_refused(mut self, word: u32, number: u8) {
        self.program[usize::from(self.registers.pc)] = word;
        self.event_is_refused(0, 1, number);
    }

    /// Claims that an event hands `value` and counts no words, and that `change` and nothing else has happened.
    #[track_caller]
    pub fn event_changes(self, kind: u32, given: u32, value: u16, change: impl FnOnce(&mut Machine)) {
        self.event_replies(kind, given, Reply { value, ..DONE }, change);
    }

    /// Claims that an event is answered with `reply`, and that `change` and nothing else has happened.
    #[track_caller]
    pub fn event_replies(mut self, kind: u32, given: u32, reply: Reply, change: impl FnOnce(&mut Machine)) {
        let mut expected = self.clone();
        change(&mut expected);
        assert_eq!(self.event(kind, given), reply, "{:?}", self.chip);
        assert_eq!(self, expected);
    }

    /// Claims that an event is refused with `number` and nothing has happened.
    #[track_caller]
    pub fn event_is_refused(self, kind: u32, given: u32, number: u8) {
        self.event_replies(kind, given, Reply { number, ..DONE }, |_| {});
    }
}
