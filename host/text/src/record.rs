//! One record, `:LLAAAATT<data>CC`, as far as it can be judged alone.

use crate::digits;
use crate::line;
use crate::refusal::Refusal;

pub const DATA: u8 = 0;
pub const END: u8 = 1;

#[derive(Clone, Debug, PartialEq, Eq)]
pub enum Record {
    Data { address: u16, data: Vec<u8> },
    End { address: u16 },
}

/// The record of a line with its ending; the refusals are judged "in that order within a record".
pub fn parse(line: &[u8]) -> Result<Record, Refusal> {
    let characters = line::inner(line).ok_or(Refusal::CharacterOrLength)?;
    let bytes = digits::bytes(characters).ok_or(Refusal::CharacterOrLength)?;
    let [count, high, low, kind, data @ .., _check] = bytes.as_slice() else {
        return Err(Refusal::CharacterOrLength);
    };
    if data.len() != usize::from(*count) {
        return Err(Refusal::CharacterOrLength);
    }
    // "an end record with data [is] a bad length", and a bad length comes before a bad check byte.
    if *kind == END && !data.is_empty() {
        return Err(Refusal::CharacterOrLength);
    }
    let sum: u64 = bytes.iter().map(|byte| u64::from(*byte)).sum();
    if !sum.is_multiple_of(256) {
        return Err(Refusal::CheckByte);
    }
    let address = u16::from(*high) * 256 + u16::from(*low);
    match *kind {
        DATA => Ok(Record::Data { address, data: data.to_vec() }),
        END => Ok(Record::End { address }),
        _ => Err(Refusal::Type),
    }
}
