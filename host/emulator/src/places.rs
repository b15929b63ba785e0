//! Where each field of a word is, on each chip.

use crate::chip::Chip;
use crate::refusal;

/// Bits `top` to `bottom` of a word; D0 is the lowest.
#[derive(Clone, Copy)]
pub struct Place {
    top: u32,
    bottom: u32,
}

const fn d(top: u32, bottom: u32) -> Place {
    Place { top, bottom }
}

impl Place {
    /// What the word has here, as a number.
    #[inline]
    pub fn read(self, word: u32) -> u32 {
        (word >> self.bottom) % self.limit()
    }

    /// The number put here; `Err(11)` if it is too wide.
    #[inline]
    pub fn put(self, number: u32) -> Result<u32, u8> {
        if number < self.limit() {
            Ok(number << self.bottom)
        } else {
            Err(refusal::FIELD_TOO_WIDE)
        }
    }

    #[inline]
    fn limit(self) -> u32 {
        1 << (self.top - self.bottom + 1)
    }
}

pub struct OpPlaces {
    pub psel: Place,
    pub alu: Place,
    pub asl: Place,
    pub dpl: Place,
    pub dphm: Place,
    pub rpdcr: Place,
    pub src: Place,
    pub dst: Place,
}

pub struct JpPlaces {
    pub brch: Place,
    pub cnd: Place,
    pub na: Place,
    pub spare: Place,
}

pub struct CodePlaces {
    pub code: Place,
    pub na: Place,
    pub spare: Place,
}

pub struct LdiPlaces {
    pub id: Place,
    pub spare: Place,
    pub dst: Place,
}

/// The two top bits, which say what kind of word it is.
#[inline]
pub fn kind(chip: Chip) -> Place {
    match chip {
        Chip::Upd77p20 => d(22, 21),
        Chip::Upd77c25 => d(23, 22),
    }
}

/// An OP or RT word.
#[inline]
#[rustfmt::skip] // One field a line, with its bits.
pub fn op(chip: Chip) -> OpPlaces {
    match chip {
        Chip::Upd77p20 => OpPlaces {
            psel: d(20, 19),
            alu: d(18, 15),
            asl: d(14, 14),
            dpl: d(13, 12),
            dphm: d(11, 9),
            rpdcr: d(8, 8),
            src: d(7, 4),
            dst: d(3, 0),
        },
        Chip::Upd77c25 => OpPlaces {
            psel: d(21, 20),
            alu: d(19, 16),
            asl: d(15, 15),
            dpl: d(14, 13),
            dphm: d(12, 9),
            rpdcr: d(8, 8),
            src: d(7, 4),
            dst: d(3, 0),
        },
    }
}

/// A JP word of the 77P20.
pub const JP: JpPlaces = JpPlaces { brch: d(20, 18), cnd: d(17, 13), na: d(12, 4), spare: d(3, 0) };

/// A JP word of the 77C25.
pub const CODE: CodePlaces = CodePlaces { code: d(21, 13), na: d(12, 2), spare: d(1, 0) };

/// An LDI word.
#[inline]
pub fn ldi(chip: Chip) -> LdiPlaces {
    match chip {
        Chip::Upd77p20 => LdiPlaces { id: d(20, 5), spare: d(4, 4), dst: d(3, 0) },
        Chip::Upd77c25 => LdiPlaces { id: d(21, 6), spare: d(5, 4), dst: d(3, 0) },
    }
}
