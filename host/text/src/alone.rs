//! One line read alone, and where its data characters stand.

use std::ops::Range;

use crate::record::{self, Record};

/// The data's place: "from its ninth character after the colon".
const FIRST_DATA: usize = 9;

#[derive(Clone, Debug, PartialEq, Eq)]
pub struct ReadRecord {
    pub number: u8,
    pub kind: u8,
    pub address: u16,
    pub bytes: u8,
    pub data: Range<usize>,
}

/// One line with its ending, read alone: refusals 12, 13, 14 or 0 only (15 and 16 belong to a whole text). A refused record has
/// kind, address and bytes 0 and the data range 0..0; a good one has the range of its data characters within the line (9..9 for
/// one without data).
pub fn read_record(line: &[u8]) -> ReadRecord {
    match record::parse(line) {
        Ok(Record::Data { address, data }) => good(record::DATA, address, data.len()),
        // "the end record's address is not looked at": it is handed back as it is written.
        Ok(Record::End { address }) => good(record::END, address, 0),
        // "A refused record's part is empty."
        Err(refusal) => ReadRecord { number: refusal.number(), kind: 0, address: 0, bytes: 0, data: 0..0 },
    }
}

/// `count` is what the record's first byte says, so a byte holds it.
fn good(kind: u8, address: u16, count: usize) -> ReadRecord {
    ReadRecord { number: 0, kind, address, bytes: count as u8, data: FIRST_DATA..FIRST_DATA + 2 * count }
}
