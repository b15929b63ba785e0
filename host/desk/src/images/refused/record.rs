//! What is wrong with one line as a record: 12, 13 and 14.

use super::{without_ending, Reason};
use crate::images::FIRST;
use crate::numbers::counted;

/// Where the fields stand: columns of an editor, which counts from 1.
const LENGTH: usize = 2;
const KIND: usize = 8;

/// Fewest characters after the colon: two for each byte of length, address, type and check.
const FEWEST: usize = 10;

/// The first thing, from left to right, for which a line is no record.
pub fn character_or_length(line: &[u8]) -> Option<Reason> {
    let record = without_ending(line);
    let at = |column: usize, why: String| Some(Reason { column: Some(column), why });
    let Some((first, digits)) = record.split_first() else { return at(1, "an empty line".to_string()) };
    if *first != FIRST {
        return at(1, format!("{}: expected a colon", character(record)));
    }
    if let Some(place) = digits.iter().position(|byte| !byte.is_ascii_hexdigit()) {
        return at(place + 2, bad_digit(&digits[place..]));
    }
    if record.len() == line.len() {
        return at(record.len() + 1, "the line has no ending: expected a line feed behind it".to_string());
    }
    let found = counted(digits.len(), "character");
    if digits.len() < FEWEST {
        return at(record.len() + 1, format!("{found} after the colon: expected {FEWEST} at least"));
    }
    let data = usize::from(byte(record, LENGTH)?);
    let (data_told, expected) = (counted(data, "data byte"), FEWEST + 2 * data);
    if digits.len() != expected {
        return at(expected.min(digits.len()) + 2, format!("{found} after the colon: expected {expected} for {data_told}"));
    }
    match byte(record, KIND)? {
        1 if data > 0 => at(LENGTH, format!("an end record with {data_told}: expected none")),
        _ => None,
    }
}

pub fn check_byte(line: &[u8]) -> Option<Reason> {
    let record = without_ending(line);
    let column = record.len().checked_sub(1)?;
    let found = byte(record, column)?;
    let all = (LENGTH..=column).step_by(2).filter_map(|column| byte(record, column));
    let sum = all.fold(0, u8::wrapping_add);
    let expected = found.wrapping_sub(sum);
    (found != expected).then(|| Reason { column: Some(column), why: format!("it is {found:02X}: expected {expected:02X}") })
}

pub fn kind(line: &[u8]) -> Option<Reason> {
    let kind = byte(line, KIND)?;
    (kind > 1).then(|| Reason { column: Some(KIND), why: format!("{kind:02X} is neither 00 (data) nor 01 (end)") })
}

/// The byte whose two digits stand from a column on.
fn byte(line: &[u8], column: usize) -> Option<u8> {
    let digits = std::str::from_utf8(line.get(column.checked_sub(1)?..column + 1)?).ok()?;
    u8::from_str_radix(digits, 16).ok()
}

/// A character where a digit should be.
fn bad_digit(from: &[u8]) -> String {
    match from.first() {
        Some(b'\r') => "a carriage return: expected a line feed right behind it".to_string(),
        _ => format!("{}: expected a hexadecimal digit", character(from)),
    }
}

/// What stands first, as a text or, where it is none, as a byte.
fn character(from: &[u8]) -> String {
    let text = from.utf8_chunks().next().and_then(|chunk| chunk.valid().chars().next());
    match (text, from.first()) {
        (Some(character), _) => format!("{:?}", character.to_string()),
        (None, Some(byte)) => format!("the byte {byte:02X}H"),
        (None, None) => "nothing".to_string(),
    }
}
