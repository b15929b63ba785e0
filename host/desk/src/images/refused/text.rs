//! What is wrong with the records of a text together: 15 and 16.

use super::{lines, Reason};
use crate::images::{larger_chip, Image};
use bemulatsho::{read_record, Record};
use std::ops::Range;

/// The column of a record's address.
const ADDRESS: usize = 4;

/// Which address is outside, was given before, or is missing when the text has come to this line.
pub fn addresses(image: Image, text: &[u8], line: usize) -> Option<Reason> {
    if text.is_empty() {
        return Some(Reason { column: None, why: "the text is empty".to_string() });
    }
    let last = read_record(lines(text).nth(line.checked_sub(1)?)?);
    // The line in which each address was given, 0 where in none.
    let mut given = vec![0; image.addresses()];
    for (line, record) in (1..line).zip(lines(text).map(read_record)) {
        addressed(&record).for_each(|address| put(&mut given, address, line));
    }
    for address in addressed(&last) {
        match given.get(address) {
            None => return Some(wrong_address(format!("{address:04X}H is outside: expected {}{}", all(image), perhaps(image, text)))),
            Some(0) => put(&mut given, address, line),
            Some(before) => return Some(wrong_address(format!("{address:04X}H was given before, in line {before}: expected each once"))),
        }
    }
    let end = if is_end(&last) { "" } else { "; there is no end record" };
    missing(image, &given).map(|missing| Reason { column: None, why: format!("{missing}{end}") })
}

/// What is said of an image that is one of the larger chip, by the highest address of its records.
fn perhaps(image: Image, text: &[u8]) -> String {
    let highest = lines(text).map(read_record).filter_map(|record| addressed(&record).last()).max();
    highest.and_then(|highest| larger_chip::perhaps(image, highest)).unwrap_or_default()
}

fn wrong_address(why: String) -> Reason {
    Reason { column: Some(ADDRESS), why }
}

/// A line behind the end record, or a last line that is none.
pub fn end(text: &[u8], line: usize) -> Option<Reason> {
    let before = line.checked_sub(1)?;
    if before.checked_sub(1).is_some_and(|at| ends(text, at)) {
        return Some(Reason { column: Some(1), why: format!("the end record is in line {before}: expected nothing behind it") });
    }
    (!ends(text, before)).then(|| Reason { column: None, why: "the last line is no end record".to_string() })
}

/// Whether the line with so many before it is an end record.
fn ends(text: &[u8], before: usize) -> bool {
    lines(text).nth(before).map(read_record).is_some_and(|record| is_end(&record))
}

fn is_end(record: &Record) -> bool {
    record.number == 0 && record.kind == 1
}

/// The addresses for which a record has bytes.
fn addressed(record: &Record) -> Range<usize> {
    let first = usize::from(record.address);
    first..first + usize::from(record.bytes)
}

fn put(given: &mut [usize], address: usize, line: usize) {
    given.get_mut(address).into_iter().for_each(|place| *place = line);
}

fn missing(image: Image, given: &[usize]) -> Option<String> {
    let first = given.iter().position(|line| *line == 0)?;
    let more = match given.iter().filter(|line| **line == 0).count() - 1 {
        0 => String::new(),
        more => format!(", and {more} more"),
    };
    Some(format!("{first:04X}H is missing{more}: expected {}", all(image)))
}

fn all(image: Image) -> String {
    format!("0000H to {:04X}H", image.addresses() - 1)
}
