//! Presets: the RAM filled from a text of Intel HEX, whole or not at all, and written as one.

use crate::texts::Loading;
use std::mem::{offset_of, size_of};

/// The characters of every preset that is written.
pub const PRESET_TEXT: usize = 716;

/// How a text was written: 0 and its length, or the refusal's number and length 0.
#[repr(C)]
#[derive(Clone, Copy, Debug, Default, PartialEq, Eq)]
pub struct Writing {
    pub number: u8,
    pub length: usize,
}

// The layout of the C header.
const _: () = assert!(size_of::<Writing>() == 16 && offset_of!(Writing, length) == 8);

extern "C" {
    fn bemulatsho_load_preset(text: *const u8, text_length: usize, ram: *mut u16, ram_length: usize) -> Loading;
    fn bemulatsho_write_preset(ram: *const u16, ram_length: usize, text: *mut u8, text_length: usize) -> Writing;
}

/// Fills a RAM from a text; refused, it is as it was.
pub fn load_preset(text: &[u8], ram: &mut [u16]) -> Loading {
    // SAFETY: each pointer goes with its slice's own length; the RAM is lent to this call alone.
    unsafe { bemulatsho_load_preset(text.as_ptr(), text.len(), ram.as_mut_ptr(), ram.len()) }
}

/// Writes a RAM's text to the beginning of a buffer; what stands behind it stays. Refused with 1, the buffer is as it was.
pub fn write_preset(ram: &[u16], text: &mut [u8]) -> Writing {
    // SAFETY: as above, of the buffer.
    unsafe { bemulatsho_write_preset(ram.as_ptr(), ram.len(), text.as_mut_ptr(), text.len()) }
}
