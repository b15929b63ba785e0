//! Images and presets in Intel HEX are the 77P20's. What is said where one is given to the 77C25, or is an image of the 77C25 itself.

use super::Image;
use crate::chip::device::Device;
use crate::chip::machine::Memory;

/// Of an image that is given to the 77C25: what it is of, and what is written in its place.
pub fn refused(memory: Memory) -> &'static str {
    match memory {
        Memory::Program => "images in Intel HEX are of the 77P20: expected the words in the script, as `program 000H: WORD ..`",
        Memory::Rom => "images in Intel HEX are of the 77P20: expected the cells in the script, as `rom 000H: CELL ..`",
        Memory::Ram => "presets in Intel HEX are of the 77P20: expected the cells in the script, as `ram 000H: WORD ..`",
    }
}

/// Of a text with addresses outside: what else ends at its highest address. A program of the 77P20 has as many as a data ROM of the 77C25.
pub fn perhaps(image: Image, highest: usize) -> Option<String> {
    let ends_so = match image {
        _ if highest + 1 != image.addresses_on(Device::Upd77c25) => return None,
        Image::Program => "a program of the 77C25, whose words stand",
        Image::Data => "a program of the 77P20, or a data ROM of the 77C25, whose cells stand",
        Image::Preset => "the RAM of the 77C25, whose cells stand",
    };
    Some(format!("; {highest:04X}H is the last, as of {ends_so} in a script behind `chip 77C25`"))
}
