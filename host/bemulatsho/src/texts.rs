//! Texts of Intel HEX: an image filled from one, whole or not at all, and one line read as a record.

use std::mem::{offset_of, size_of};

/// How a text was read: 0 or the refusal's number, and the line that decided, counted from 1; 0 where no line was looked at.
#[repr(C)]
#[derive(Clone, Copy, Debug, Default, PartialEq, Eq)]
pub struct Loading {
    pub number: u8,
    pub line: usize,
}

/// What a line says as a record. A refused one has its number, zeros and no data.
#[derive(Clone, Copy, Debug, Default, PartialEq, Eq)]
pub struct Record<'line> {
    pub number: u8,
    pub kind: u8,
    pub address: u16,
    /// How many data bytes there are.
    pub bytes: u8,
    /// The characters that spell them, two a byte: the very part of the line.
    pub data: &'line [u8],
}

/// A record as C has it, with its data characters as a place in the line.
#[repr(C)]
struct RecordInLine {
    number: u8,
    kind: u8,
    address: u16,
    bytes: u8,
    offset: usize,
    length: usize,
}

// The layout of the C header.
const _: () = {
    assert!(size_of::<Loading>() == 16 && offset_of!(Loading, line) == 8);
    assert!(size_of::<RecordInLine>() == 24 && offset_of!(RecordInLine, bytes) == 4 && offset_of!(RecordInLine, offset) == 8);
};

extern "C" {
    fn bemulatsho_load_program(text: *const u8, text_length: usize, image: *mut u32, image_length: usize) -> Loading;
    fn bemulatsho_load_data(text: *const u8, text_length: usize, image: *mut u16, image_length: usize) -> Loading;
    fn bemulatsho_read_record(line: *const u8, line_length: usize) -> RecordInLine;
}

/// Fills a program from a text; refused, it is as it was.
pub fn load_program(text: &[u8], image: &mut [u32]) -> Loading {
    // SAFETY: each pointer goes with its slice's own length; the image is lent to this call alone.
    unsafe { bemulatsho_load_program(text.as_ptr(), text.len(), image.as_mut_ptr(), image.len()) }
}

/// Fills a data ROM from a text; refused, it is as it was.
pub fn load_data(text: &[u8], image: &mut [u16]) -> Loading {
    // SAFETY: as above.
    unsafe { bemulatsho_load_data(text.as_ptr(), text.len(), image.as_mut_ptr(), image.len()) }
}

/// Reads a line, with its ending, as a record; refused with 12, 13 or 14.
pub fn read_record(line: &[u8]) -> Record<'_> {
    // SAFETY: the pointer goes with its slice's own length.
    let RecordInLine { number, kind, address, bytes, offset, length } = unsafe { bemulatsho_read_record(line.as_ptr(), line.len()) };
    Record { number, kind, address, bytes, data: &line[offset..offset + length] }
}
