//! A JP word of either chip, as it runs.

use crate::branch;
use crate::chip::Chip;
use crate::conditions::Asked;
use crate::jump_codes;
use crate::word::{code_fields, jp_fields};

#[derive(Clone, Copy, Debug, PartialEq, Eq)]
pub enum Meaning {
    Jump,
    Call,
    /// Jump if the answer is the wanted one.
    When(Asked, bool),
}

pub struct JpWord {
    /// None: the chip knows no such jump.
    pub meaning: Option<Meaning>,
    pub na: u16,
    pub unused_bits_set: bool,
}

/// Reads a JP word. Its spare bits are unused bits, and CND is too under a jump or a call of the 77P20.
#[inline]
pub fn jp_word(chip: Chip, word: u32) -> JpWord {
    match chip {
        Chip::Upd77p20 => {
            let fields = jp_fields(word);
            let cnd_is_used = fields.brch == branch::JUMP_ON_CONDITION;
            JpWord {
                meaning: branch::meaning(fields.brch, fields.cnd),
                na: fields.na,
                unused_bits_set: fields.spare != 0 || (!cnd_is_used && fields.cnd != 0),
            }
        }
        Chip::Upd77c25 => {
            let fields = code_fields(word);
            JpWord { meaning: jump_codes::meaning(fields.code), na: fields.na, unused_bits_set: fields.spare != 0 }
        }
    }
}
