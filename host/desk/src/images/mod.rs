//! Images of the 77P20's program, data ROM and RAM (a preset) in Intel HEX: filled whole by the proved loader, or refused with where and why.

pub mod faulty;
pub mod larger_chip;
mod loaded;
pub mod preset;
mod refused;

pub use loaded::{load, read, text};

use crate::chip::device::Device;
use crate::chip::machine::Memory;

/// How an image begins, as no script does.
pub const FIRST: u8 = b':';

#[derive(Clone, Copy, Debug, PartialEq, Eq)]
pub enum Image {
    Program,
    Data,
    Preset,
}

impl Image {
    /// The memory that it fills.
    pub fn memory(self) -> Memory {
        match self {
            Image::Program => Memory::Program,
            Image::Data => Memory::Rom,
            Image::Preset => Memory::Ram,
        }
    }

    /// How many addresses its text has to give.
    pub fn addresses(self) -> usize {
        self.addresses_on(Device::Upd77p20)
    }

    /// How many the image of a chip's memory has: four a word, two a cell.
    fn addresses_on(self, device: Device) -> usize {
        match self {
            Image::Program => 4 * device.words(),
            Image::Data => 2 * device.cells(),
            Image::Preset => 2 * device.ram(),
        }
    }
}
