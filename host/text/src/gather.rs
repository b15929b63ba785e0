//! A whole text as the bytes of an image.

use crate::image::Image;
use crate::line;
use crate::record::{self, Record};
use crate::refusal::Refusal;

/// The bytes of an image of this size, or why not, and the line that decided.
pub fn gather(text: &[u8], size: usize) -> (usize, Result<Vec<u8>, Refusal>) {
    let mut image = Image::empty(size);
    let mut lines = line::lines(text);
    let mut last = 0;
    let mut ended = false;
    for line in lines.by_ref() {
        last += 1;
        // "the first faulty record deciding"
        match record::parse(line) {
            Err(refusal) => return (last, Err(refusal)),
            Ok(Record::Data { address, data }) => {
                if let Err(refusal) = image.give(address, &data) {
                    return (last, Err(refusal));
                }
            }
            // "Nothing after the end record's line is read as a record, and the end record's address is not looked at."
            Ok(Record::End { .. }) => {
                ended = true;
                break;
            }
        }
    }
    // "15 for "missing" and then 16 come after the last record."
    match image.whole() {
        Err(refusal) => (last, Err(refusal)),
        Ok(_) if !ended => (last, Err(Refusal::End)),
        Ok(_) if lines.next().is_some() => (last + 1, Err(Refusal::End)),
        Ok(bytes) => (last, Ok(bytes)),
    }
}
