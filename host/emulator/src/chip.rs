//! The two chips and their sizes.

/// The chip that a machine has.
#[derive(Clone, Copy, Debug, PartialEq, Eq)]
pub enum Chip {
    Upd77p20,
    Upd77c25,
}

#[derive(Clone, Copy, Debug, PartialEq, Eq)]
pub struct Sizes {
    /// Instruction words; PC and the stack cells number them.
    pub words: usize,
    pub word_bits: u32,
    /// Data ROM cells; RP numbers them.
    pub cells: usize,
    pub cell_bits: u32,
    /// RAM cells, of 16 bits; DP numbers them.
    pub ram: usize,
    /// Stack cells.
    pub stack: usize,
}

impl Chip {
    #[inline]
    pub const fn sizes(self) -> Sizes {
        match self {
            Chip::Upd77p20 => Sizes { words: 512, word_bits: 23, cells: 512, cell_bits: 13, ram: 128, stack: 4 },
            Chip::Upd77c25 => Sizes { words: 2048, word_bits: 24, cells: 1024, cell_bits: 16, ram: 256, stack: 4 },
        }
    }
}
