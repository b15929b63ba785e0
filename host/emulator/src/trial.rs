//! The trial desk, which has a 77P20: one fault, and all else as the rules say. An OP or RT word changes the row of DP by DPH-M
//! before it reads its source and stores its destination, not at its end.

use crate::chip::Chip;
use crate::event::{event_with, Reply};
use crate::registers::Registers;
use crate::step::ROW_FIRST;

/// `event` as the trial desk answers it.
pub fn event(registers: &mut Registers, program: &[u32], rom: &[u16], ram: &mut [u16], kind: u32, value: u32) -> Reply {
    event_with::<ROW_FIRST>(Chip::Upd77p20, registers, program, rom, ram, kind, value)
}
