//! The machine that a script prepares and its events change: the proved core of one of the chips, with the images and the RAM that are lent to
//! it.

use crate::chip::device::Device;
use crate::chip::ram::Ram;
use crate::chip::registers::Held;
use bemulatsho::{kind, upd77c25, Reply};

/// Which of the lent lists a statement fills.
#[derive(Clone, Copy, Debug, PartialEq, Eq, Hash)]
pub enum Memory {
    Program,
    Rom,
    Ram,
}

impl Memory {
    pub const ALL: [Memory; 3] = [Memory::Program, Memory::Rom, Memory::Ram];

    pub fn name(self) -> &'static str {
        match self {
            Memory::Program => "program",
            Memory::Rom => "rom",
            Memory::Ram => "ram",
        }
    }

    /// How many places a chip has of it.
    pub fn length(self, device: Device) -> usize {
        match self {
            Memory::Program => device.words(),
            Memory::Rom => device.cells(),
            Memory::Ram => device.ram(),
        }
    }

    /// What its list can hold; whether a word or cell fits the chip is for a refusal to say.
    pub fn largest(self) -> u32 {
        match self {
            Memory::Program => u32::MAX,
            Memory::Rom | Memory::Ram => 0xffff,
        }
    }
}

#[derive(Clone)]
pub struct Machine {
    device: Device,
    pub held: Held,
    pub program: Vec<u32>,
    pub rom: Vec<u16>,
    pub ram: Ram,
}

/// What events change of a machine, to go back to.
#[derive(Clone, Copy)]
pub struct Kept {
    held: Held,
    ram: Ram,
}

impl Machine {
    /// A machine that has run nothing, with empty images and RAM.
    pub fn new(device: Device) -> Machine {
        let held = match device {
            Device::Upd77p20 => Held { registers: bemulatsho::fresh_registers(), trb: 0 },
            Device::Upd77c25 => upd77c25::fresh_registers(),
        };
        let (program, rom) = (vec![0; device.words()], vec![0; device.cells()]);
        Machine { device, held, program, rom, ram: Ram::default() }
    }

    pub fn device(&self) -> Device {
        self.device
    }

    /// The cells of its RAM.
    pub fn cells(&self) -> &[u16] {
        self.ram.of(self.device)
    }

    /// Puts numbers into an image or the RAM, from a place on; a script's reader has seen that they fit.
    pub fn fill(&mut self, memory: Memory, from: usize, values: &[u32]) {
        for (place, value) in (from..).zip(values) {
            match memory {
                Memory::Program => put(&mut self.program, place, *value),
                Memory::Rom => put(&mut self.rom, place, *value as u16),
                Memory::Ram => put(self.ram.of_mut(self.device), place, *value as u16),
            }
        }
    }

    #[inline]
    pub fn event(&mut self, kind: u32, value: u32) -> Reply {
        let Machine { device, held, program, rom, ram } = self;
        given(*device, held, program, rom, ram, kind, value)
    }

    /// Runs words of another program image than its own.
    #[inline]
    pub fn run_on(&mut self, program: &[u32], words: u32) -> Reply {
        let Machine { device, held, rom, ram, .. } = self;
        given(*device, held, program, rom, ram, kind::RUN, words)
    }

    pub fn pc(&self) -> u16 {
        self.held.registers.pc
    }

    /// The word at PC, which the next run begins with.
    pub fn word_at_pc(&self) -> u32 {
        self.program.get(usize::from(self.pc())).copied().unwrap_or(0)
    }

    #[inline]
    pub fn kept(&self) -> Kept {
        Kept { held: self.held, ram: self.ram }
    }

    pub fn go_back(&mut self, kept: &Kept) {
        self.held = kept.held;
        self.ram = kept.ram;
    }
}

/// An event on the core of a chip.
#[inline]
fn given(device: Device, held: &mut Held, program: &[u32], rom: &[u16], ram: &mut Ram, kind: u32, value: u32) -> Reply {
    let ram = ram.of_mut(device);
    match device {
        Device::Upd77p20 => bemulatsho::event(&mut held.registers, program, rom, ram, kind, value),
        Device::Upd77c25 => upd77c25::event(held, program, rom, ram, kind, value),
    }
}

fn put<T>(list: &mut [T], place: usize, value: T) {
    if let Some(cell) = list.get_mut(place) {
        *cell = value;
    }
}

impl Default for Machine {
    fn default() -> Machine {
        Machine::new(Device::default())
    }
}
