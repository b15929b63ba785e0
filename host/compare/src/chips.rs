//! The chips that are compared, and their names.

use emulator::Chip;

pub const CHIPS: [Chip; 2] = [Chip::Upd77p20, Chip::Upd77c25];

pub fn name(chip: Chip) -> &'static str {
    match chip {
        Chip::Upd77p20 => "77P20",
        Chip::Upd77c25 => "77C25",
    }
}

pub fn named(text: &str) -> Option<Chip> {
    CHIPS.into_iter().find(|chip| name(*chip) == text)
}
