//! The sizes of the uPD77P20, by themselves.

use crate::chip::{Chip, Sizes};

const SIZES: Sizes = Chip::Upd77p20.sizes();

/// Instruction words, of 23 bits.
pub const WORDS: usize = SIZES.words;
/// Data ROM cells, of 13 bits.
pub const CELLS: usize = SIZES.cells;
/// RAM cells, of 16 bits.
pub const RAM: usize = SIZES.ram;
/// Stack cells, of 9 bits.
pub const STACK: usize = SIZES.stack;

pub const WORD_BITS: u32 = SIZES.word_bits;
pub const CELL_BITS: u32 = SIZES.cell_bits;
