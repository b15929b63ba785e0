//! The uPD77C25 in the same way: longer words, larger images and RAM, and one register more, TRB. Refusals 6 and 7 do not occur.

use crate::events::{in_place, Event};
use crate::words::{Built, Rows, TakenRows, WordOf};
use crate::Reply;
use std::mem::{offset_of, size_of};

pub use crate::words::{LdiFields, OpFields};

/// Instruction words, data ROM cells and RAM cells that a call is lent.
pub const WORDS: usize = 2048;
pub const CELLS: usize = 1024;
pub const RAM: usize = 256;

/// The record of the smaller chip, whose pointers are wider here, and TRB beside it.
#[repr(C)]
#[derive(Clone, Copy, Debug, Default, PartialEq, Eq)]
pub struct Registers {
    pub registers: crate::Registers,
    pub trb: u16,
}

/// The fields of a JP word, where jump and condition are one code.
#[repr(C)]
#[derive(Clone, Copy, Debug, Default, PartialEq, Eq)]
pub struct CodeFields {
    pub code: u16,
    pub na: u16,
    pub spare: u8,
}

pub type Word = WordOf<CodeFields>;

// The layout of the C header.
const _: () = {
    assert!(size_of::<Registers>() == 50 && offset_of!(Registers, trb) == 48);
    assert!(size_of::<CodeFields>() == 6 && offset_of!(CodeFields, na) == 2 && offset_of!(CodeFields, spare) == 4);
    assert!(size_of::<Rows<CodeFields>>() == 20 && size_of::<TakenRows<CodeFields>>() == 22);
};

extern "C" {
    fn bemulatsho_77c25_event_in_place(
        registers: *mut Registers,
        program: *const u32,
        program_length: usize,
        rom: *const u16,
        rom_length: usize,
        ram: *mut u16,
        ram_length: usize,
        event: Event,
    ) -> Reply;
    fn bemulatsho_77c25_fresh_registers() -> Registers;
    fn bemulatsho_77c25_take_apart(word: u32) -> TakenRows<CodeFields>;
    fn bemulatsho_77c25_build(rows: Rows<CodeFields>) -> Built;
}

/// One event on the caller's record and RAM.
#[inline]
pub fn event(registers: &mut Registers, program: &[u32], rom: &[u16], ram: &mut [u16], kind: u32, value: u32) -> Reply {
    // SAFETY: a call of the library.
    unsafe { in_place(bemulatsho_77c25_event_in_place, registers, program, rom, ram, Event { kind, value }) }
}

/// The registers of a machine that has run nothing.
pub fn fresh_registers() -> Registers {
    // SAFETY: takes nothing and hands a record by value.
    unsafe { bemulatsho_77c25_fresh_registers() }
}

/// The fields of a word; refused with 4 if it is 2^24 or more.
pub fn take_apart(word: u32) -> Result<Word, u8> {
    // SAFETY: takes a number and hands a record by value.
    unsafe { bemulatsho_77c25_take_apart(word) }.word()
}

/// The word of these fields; refused with 11 if one is too wide.
pub fn build(word: &Word) -> Result<u32, u8> {
    // SAFETY: takes and hands records by value.
    unsafe { bemulatsho_77c25_build(word.rows()) }.bits()
}
