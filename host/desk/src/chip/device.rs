//! The two chips: how scripts call them, and how much of each memory they have.

use std::fmt;

/// A script that says nothing is for the 77P20.
#[derive(Clone, Copy, Debug, Default, PartialEq, Eq, Hash)]
pub enum Device {
    #[default]
    Upd77p20,
    Upd77c25,
}

impl Device {
    pub const ALL: [Device; 2] = [Device::Upd77p20, Device::Upd77c25];

    pub fn name(self) -> &'static str {
        match self {
            Device::Upd77p20 => "77P20",
            Device::Upd77c25 => "77C25",
        }
    }

    /// The chip of a name, in capitals or small letters.
    pub fn named(name: &str) -> Option<Device> {
        Device::ALL.into_iter().find(|device| device.name().eq_ignore_ascii_case(name))
    }

    pub fn words(self) -> usize {
        match self {
            Device::Upd77p20 => bemulatsho::WORDS,
            Device::Upd77c25 => bemulatsho::upd77c25::WORDS,
        }
    }

    pub fn cells(self) -> usize {
        match self {
            Device::Upd77p20 => bemulatsho::CELLS,
            Device::Upd77c25 => bemulatsho::upd77c25::CELLS,
        }
    }

    pub fn ram(self) -> usize {
        match self {
            Device::Upd77p20 => bemulatsho::RAM,
            Device::Upd77c25 => bemulatsho::upd77c25::RAM,
        }
    }

    /// The bits of an instruction word.
    pub fn word_bits(self) -> u32 {
        match self {
            Device::Upd77p20 => 23,
            Device::Upd77c25 => 24,
        }
    }
}

impl fmt::Display for Device {
    fn fmt(&self, f: &mut fmt::Formatter) -> fmt::Result {
        f.write_str(self.name())
    }
}

#[cfg(test)]
mod tests {
    use super::*;

    #[test]
    fn a_chip_is_found_by_its_name() {
        for device in Device::ALL {
            assert_eq!(Device::named(device.name()), Some(device));
            assert_eq!(Device::named(&device.name().to_lowercase()), Some(device));
        }
        assert_eq!(Device::named("7720"), None);
        assert_eq!(Device::default(), Device::Upd77p20);
    }
}
