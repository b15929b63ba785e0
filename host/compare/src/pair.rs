//! One machine twice: the proved core through the C interface, and the emulator. Every event goes to both; the first difference in
//! the reply, a register or the RAM is handed back with what was lent.

use crate::chips;
use crate::proved::{self, Record};
use emulator::{Chip, Registers, Reply};
use std::fmt;

/// What is lent to a call, and the record that goes from call to call.
#[derive(Clone)]
pub struct Pair {
    chip: Chip,
    pub registers: Registers,
    pub program: Vec<u32>,
    pub rom: Vec<u16>,
    pub ram: Vec<u16>,
    // Kept between calls so that an event allocates nothing: the core's RAM, and the RAM before the event.
    core_ram: Vec<u16>,
    saved_ram: Vec<u16>,
}

/// The event that the two answered differently, from the state before it.
pub struct Difference {
    before: Pair,
    kind: u32,
    value: u32,
    proved: Answer,
    second: Answer,
}

struct Answer {
    reply: Reply,
    registers: Record,
    ram: Vec<u16>,
}

impl Pair {
    /// A program that begins with these words, on a machine that has run nothing.
    pub fn new(chip: Chip, words: &[u32]) -> Pair {
        let sizes = chip.sizes();
        let mut program = vec![0; sizes.words];
        program[..words.len()].copy_from_slice(words);
        Pair::lent(chip, Registers::default(), program, vec![0; sizes.cells], vec![0; sizes.ram])
    }

    /// Any registers, images and RAM.
    pub fn lent(chip: Chip, registers: Registers, program: Vec<u32>, rom: Vec<u16>, ram: Vec<u16>) -> Pair {
        Pair { chip, registers, program, rom, ram, core_ram: Vec::new(), saved_ram: Vec::new() }
    }

    /// One event on both; the state after it is kept where they agree.
    pub fn event(&mut self, kind: u32, value: u32) -> Result<Reply, Box<Difference>> {
        let saved = self.registers;
        self.saved_ram.clone_from(&self.ram);
        self.core_ram.clone_from(&self.ram);
        let mut core = proved::record(&self.registers);
        let proved = proved::event(self.chip, &mut core, &self.program, &self.rom, &mut self.core_ram, kind, value);
        let second = emulator::event_on(self.chip, &mut self.registers, &self.program, &self.rom, &mut self.ram, kind, value);
        let second_record = proved::record(&self.registers);
        if proved == second && core == second_record && self.core_ram == self.ram {
            return Ok(second);
        }
        let proved = Answer { reply: proved, registers: core, ram: self.core_ram.clone() };
        let second = Answer { reply: second, registers: second_record, ram: self.ram.clone() };
        self.registers = saved;
        self.ram.clone_from(&self.saved_ram);
        Err(Box::new(Difference { before: self.clone(), kind, value, proved, second }))
    }
}

impl Difference {
    /// The same difference from as few words as show it: a run is cut to the first word that the two do differently.
    pub fn smallest(self) -> Difference {
        let longest = if self.kind == 0 { self.value.min(65535) } else { 0 };
        for words in 1..=longest {
            if let Err(smaller) = self.before.clone().event(0, words) {
                return last_word(*smaller);
            }
        }
        self
    }
}

/// A run whose last word differs, as a run of that word alone.
fn last_word(difference: Difference) -> Difference {
    let mut pair = difference.before.clone();
    if pair.event(0, difference.value - 1).is_ok() {
        if let Err(alone) = pair.event(0, 1) {
            return *alone;
        }
    }
    difference
}

impl fmt::Display for Difference {
    fn fmt(&self, f: &mut fmt::Formatter) -> fmt::Result {
        let Difference { before, kind, value, proved, second } = self;
        writeln!(f, "{}: event {kind} with value {value:X}H is answered differently", chips::name(before.chip))?;
        writeln!(f, "  lent: program of {}, data ROM of {}, RAM of {}", before.program.len(), before.rom.len(), before.ram.len())?;
        let pc = usize::from(before.registers.pc);
        if let Some(word) = before.program.get(pc) {
            writeln!(f, "  word at PC: {word:06X}H {:?}", emulator::take_apart_on(before.chip, *word).ok())?;
        }
        writeln!(f, "  before: {:X?}", proved::record(&before.registers))?;
        writeln!(f, "  proved: {:X?} {:X?}", proved.reply, proved.registers)?;
        writeln!(f, "  second: {:X?} {:X?}", second.reply, second.registers)?;
        for (place, (one, other)) in proved.ram.iter().zip(&second.ram).enumerate() {
            if one != other {
                writeln!(f, "  RAM {place:02X}H: {one:04X}H proved, {other:04X}H second, {:04X}H before", before.ram[place])?;
            }
        }
        Ok(())
    }
}
