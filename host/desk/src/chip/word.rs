//! An instruction word of either chip, taken apart by the proved core.

use crate::chip::device::Device;
use bemulatsho::upd77c25::{self, CodeFields};
use bemulatsho::{JpFields, WordOf};

pub type Word = WordOf<Jump>;

/// The fields of a JP word: the 77P20 has BRCH and CND, the 77C25 one code in their place.
#[derive(Clone, Copy, Debug, PartialEq, Eq)]
pub enum Jump {
    Fields(JpFields),
    Code(CodeFields),
}

/// The fields of a word; refused with 4 if it has more bits than the chip's words.
pub fn take_apart(device: Device, word: u32) -> Result<Word, u8> {
    match device {
        Device::Upd77p20 => bemulatsho::take_apart(word).map(|word| with(word, Jump::Fields)),
        Device::Upd77c25 => upd77c25::take_apart(word).map(|word| with(word, Jump::Code)),
    }
}

fn with<Jp>(word: WordOf<Jp>, jump: impl Fn(Jp) -> Jump) -> Word {
    match word {
        WordOf::Op(fields) => WordOf::Op(fields),
        WordOf::Rt(fields) => WordOf::Rt(fields),
        WordOf::Jp(fields) => WordOf::Jp(jump(fields)),
        WordOf::Ldi(fields) => WordOf::Ldi(fields),
    }
}
