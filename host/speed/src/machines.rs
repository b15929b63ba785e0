//! What programs run on: the library's chips, through the C interface, and the emulator.

use crate::programs::{self, Program};
use bemulatsho::upd77c25;

/// Words of one call.
pub const CALL: u32 = 65535;

/// One machine that can be run on.
pub trait Runs {
    /// One call of all its words; false where one of them was refused.
    fn call(&mut self, program: &Program, ram: &mut [u16]) -> bool;
}

/// The library's 77P20.
pub struct Core(pub bemulatsho::Registers);
/// The library's 77C25.
pub struct LargeCore(pub upd77c25::Registers);
/// Either, as the emulator has it.
pub struct Emulator(pub emulator::Chip, pub emulator::Registers);

impl Runs for Core {
    fn call(&mut self, program: &Program, ram: &mut [u16]) -> bool {
        let reply = bemulatsho::event(&mut self.0, &program.words, &program.rom, ram, 0, CALL);
        reply.number == 0 && u32::from(reply.words) == CALL
    }
}

impl Runs for LargeCore {
    fn call(&mut self, program: &Program, ram: &mut [u16]) -> bool {
        let reply = upd77c25::event(&mut self.0, &program.words, &program.rom, ram, 0, CALL);
        reply.number == 0 && u32::from(reply.words) == CALL
    }
}

impl Runs for Emulator {
    fn call(&mut self, program: &Program, ram: &mut [u16]) -> bool {
        let reply = emulator::event_on(self.0, &mut self.1, &program.words, &program.rom, ram, 0, CALL);
        reply.number == 0 && u32::from(reply.words) == CALL
    }
}

/// A chip of the library, and what its instructions are counted on.
pub struct Chip {
    /// As tools/instructions.budget has it.
    pub name: &'static str,
    pub emulated: emulator::Chip,
    /// The real one at 8 MHz.
    pub words_a_second: f64,
    pub fresh: fn() -> Box<dyn Runs>,
}

impl Chip {
    /// The programs that have a budget.
    pub fn loops(&self) -> Vec<Program> {
        programs::loops(self.emulated)
    }

    /// Words alone, which have none.
    pub fn alone(&self) -> Vec<Program> {
        programs::alone(self.emulated)
    }

    pub fn emulator(&self) -> Emulator {
        Emulator(self.emulated, emulator::Registers::default())
    }
}

pub const UPD77P20: Chip = Chip {
    name: "77P20",
    emulated: emulator::Chip::Upd77p20,
    words_a_second: 4e6,
    fresh: || Box::new(Core(bemulatsho::fresh_registers())),
};

pub const UPD77C25: Chip = Chip {
    name: "77C25",
    emulated: emulator::Chip::Upd77c25,
    words_a_second: 8e6,
    fresh: || Box::new(LargeCore(upd77c25::fresh_registers())),
};

/// All of them: tools/instructions asks for every chip whose events the C header has.
pub const CHIPS: [Chip; 2] = [UPD77P20, UPD77C25];
