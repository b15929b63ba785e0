//! The proved machine for Rust programs: the desk's static library behind slices and references, so that no call can be given a
//! length that is not its buffer's own. Every input is accepted; a refused one gets its number and changes nothing.
//!
//! This is the uPD77P20; `upd77c25` has the larger chip.

mod events;
mod presets;
mod record;
mod texts;
pub mod upd77c25;
mod words;

pub use events::Reply;
pub use presets::{load_preset, write_preset, Writing, PRESET_TEXT};
pub use record::{BothFlags, Flags, Registers};
pub use texts::{load_data, load_program, read_record, Loading, Record};
pub use words::{build, take_apart, JpFields, LdiFields, OpFields, Word, WordOf};

use events::{in_place, Event};

/// Instruction words, data ROM cells and RAM cells that a call is lent.
pub const WORDS: usize = 512;
pub const CELLS: usize = 512;
pub const RAM: usize = 128;

/// The kinds of event.
pub mod kind {
    pub const RUN: u32 = 0;
    pub const HOST_READS: u32 = 1;
    pub const HOST_WRITES: u32 = 2;
    pub const HOST_READS_STATUS: u32 = 3;
    pub const SERIAL_IN: u32 = 4;
    pub const SERIAL_OUT: u32 = 5;
    pub const INTERRUPT: u32 = 6;
    pub const RESET: u32 = 7;
}

extern "C" {
    fn bemulatsho_event_in_place(
        registers: *mut Registers,
        program: *const u32,
        program_length: usize,
        rom: *const u16,
        rom_length: usize,
        ram: *mut u16,
        ram_length: usize,
        event: Event,
    ) -> Reply;
    fn bemulatsho_fresh_registers() -> Registers;
    fn bemulatsho_version() -> u32;
}

/// One event on the caller's record and RAM.
#[inline]
pub fn event(registers: &mut Registers, program: &[u32], rom: &[u16], ram: &mut [u16], kind: u32, value: u32) -> Reply {
    // SAFETY: a call of the library.
    unsafe { in_place(bemulatsho_event_in_place, registers, program, rom, ram, Event { kind, value }) }
}

/// The registers of a machine that has run nothing.
pub fn fresh_registers() -> Registers {
    // SAFETY: takes nothing and hands a record by value.
    unsafe { bemulatsho_fresh_registers() }
}

/// The version of the library's interface.
pub fn version() -> u32 {
    // SAFETY: takes nothing and hands a number.
    unsafe { bemulatsho_version() }
}
