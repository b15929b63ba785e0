//! A listing on both implementations. What goes wrong is told with the listing's name and the step.

use super::assembly::assembled;
use super::line::Line;
use crate::chip_values::ChipValues;
use crate::pair::Pair;
use emulator::{Chip, Registers, Reply};
use random::Random;
use std::fmt::Debug;

pub const RUN: u32 = 0;
pub const HOST_READS: u32 = 1;
pub const HOST_WRITES: u32 = 2;
pub const HOST_READS_STATUS: u32 = 3;
pub const SERIAL_IN: u32 = 4;
pub const SERIAL_OUT: u32 = 5;
pub const RESET: u32 = 7;

/// No listing takes more words than this between two addresses.
const TOO_MANY: u32 = 10_000;

pub struct Run {
    listing: &'static str,
    pub pair: Pair,
}

impl Run {
    /// A machine that has run nothing, with the program from address 0. Every word must be what its line says.
    pub fn new(listing: &'static str, program: &[Line]) -> Result<Run, String> {
        for (address, line) in program.iter().enumerate() {
            if assembled(program, address) != Some(line.word) {
                return Err(wrong_word(listing, program, address));
            }
        }
        let words: Vec<u32> = program.iter().map(|line| line.word).collect();
        Ok(Run { listing, pair: Pair::new(Chip::Upd77p20, &words) })
    }

    /// Puts anything in every register that a listing finds as its caller left it; what it asks for is set afterwards.
    pub fn disturb(&mut self, random: &mut Random) {
        self.pair.registers = Registers {
            a: random.word(),
            b: random.word(),
            k: random.word(),
            l: random.word(),
            tr: random.word(),
            dr: random.word(),
            si: random.word(),
            so: random.word(),
            dp: random.word() % 128,
            rp: random.word() % 512,
            flags_a: random.flags(),
            flags_b: random.flags(),
            ..self.pair.registers
        };
    }

    /// One event that must be done; hands its value.
    pub fn event(&mut self, step: &str, kind: u32, value: u32) -> Result<u16, String> {
        match self.pair.event(kind, value) {
            Ok(reply) if reply.number == 0 => Ok(reply.value),
            Ok(reply) => {
                let Reply { number, words, .. } = reply;
                Err(format!("{}, {step}: event {kind}: expected done, found refusal {number} after {words} words", self.listing))
            }
            Err(difference) => Err(format!("{}, {step}: {difference}", self.listing)),
        }
    }

    /// Runs until PC comes to this address; hands the number of words.
    pub fn until(&mut self, step: &str, address: u16) -> Result<u32, String> {
        for words in 1..=TOO_MANY {
            self.event(step, RUN, 1)?;
            if self.pair.registers.pc == address {
                return Ok(words);
            }
        }
        let pc = self.pair.registers.pc;
        Err(format!("{}, {step}: expected PC at {address:X}H, found it at {pc:X}H after {TOO_MANY} words", self.listing))
    }

    /// The program stays at this address however many words run.
    pub fn waits_at(&mut self, step: &str, address: u16) -> Result<(), String> {
        for words in [0, 1, 1000] {
            self.event(step, RUN, words)?;
            self.same(step, "PC while waiting", address, self.pair.registers.pc)?;
        }
        Ok(())
    }

    /// For a program that begins with a CALL and a JMP back to it: hands the words from the subroutine's first to its RET.
    pub fn call(&mut self, step: &str) -> Result<u32, String> {
        self.event(step, RUN, 1)?;
        let words = self.until(step, 1)?;
        self.event(step, RUN, 1)?;
        Ok(words)
    }

    /// What was found must be what the manual or arithmetic says; told in hex.
    pub fn same<T: PartialEq + Debug>(&self, step: &str, what: &str, expected: T, found: T) -> Result<(), String> {
        if expected == found {
            return Ok(());
        }
        Err(format!("{}, {step}: {what}, in hex: expected {expected:X?}, found {found:X?}", self.listing))
    }

    /// The same of a number of words, told in decimal.
    pub fn same_words(&self, step: &str, expected: u32, found: u32) -> Result<(), String> {
        if expected == found {
            return Ok(());
        }
        Err(format!("{}, {step}: expected {expected} words, found {found}", self.listing))
    }

    /// The same of RAM from this cell on, told of the first cell that differs.
    pub fn same_ram(&self, step: &str, from: usize, expected: &[u16]) -> Result<(), String> {
        for (place, cell) in expected.iter().enumerate() {
            let place = from + place;
            self.same(step, &format!("RAM cell {place:02X}H"), *cell, self.pair.ram[place])?;
        }
        Ok(())
    }
}

fn wrong_word(listing: &str, program: &[Line], address: usize) -> String {
    let line = program[address];
    let place = line.number.map_or(String::from("a line of ours"), |number| format!("line {number} of the manual"));
    let expected = assembled(program, address).map_or(String::from("a line that can be read"), |word| format!("{word:06X}H"));
    format!("{listing}, word at {address:X}H, {place}, {:?}: expected {expected}, found {:06X}H", line.source, line.word)
}
