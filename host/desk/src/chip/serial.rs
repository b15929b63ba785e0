//! Which words take a sample in and which send one.

use crate::chip::device::Device;
use crate::chip::word::{take_apart, Word};

const SIM: u8 = 11;
const SIL: u8 = 12;
const SOL: u8 = 8;
const SOM: u8 = 9;

/// Whether a word has SIM or SIL as its source: it reads SI and clears SIACK.
pub fn reads_si(device: Device, word: u32) -> bool {
    matches!(take_apart(device, word), Ok(Word::Op(fields) | Word::Rt(fields)) if matches!(fields.src, SIM | SIL))
}

/// Whether a word has SOL or SOM as its destination: it stores SO and sets SORQ.
pub fn stores_so(device: Device, word: u32) -> bool {
    let destination = match take_apart(device, word) {
        Ok(Word::Op(fields) | Word::Rt(fields)) => fields.dst,
        Ok(Word::Ldi(fields)) => fields.dst,
        Ok(Word::Jp(_)) | Err(_) => return false,
    };
    matches!(destination, SOL | SOM)
}
