//! A whole text into a lent image.

use crate::gather::gather;
use crate::refusal::Refusal;

/// Instruction words of a program, and cells of a data ROM.
const CELLS: usize = 512;
/// "A preset is the 128 RAM cells"
const RAM_CELLS: usize = 128;

/// 0 or the refusal's number, and the line that decided, counted from 1
#[derive(Clone, Copy, Debug, PartialEq, Eq)]
pub struct Outcome {
    pub number: u8,
    pub line: usize,
}

/// "instruction word n at addresses 4n to 4n+3"
pub fn load_program(text: &[u8], image: &mut [u32]) -> Outcome {
    load(text, image, CELLS, 4, |value| value as u32)
}

/// "data cell n at 2n and 2n+1"
pub fn load_data(text: &[u8], image: &mut [u16]) -> Outcome {
    load(text, image, CELLS, 2, |value| value as u16)
}

/// "256 bytes from address 0 in Intel HEX, low byte first. [..] Loading follows E1"
pub fn load_preset(text: &[u8], ram: &mut [u16]) -> Outcome {
    load(text, ram, RAM_CELLS, 2, |value| value as u16)
}

fn load<Cell>(text: &[u8], image: &mut [Cell], cells: usize, bytes_per_cell: usize, cell: impl Fn(u64) -> Cell) -> Outcome {
    // "1 for a lent image of the wrong length, before the rest"
    if image.len() != cells {
        return Outcome { number: Refusal::LentLength.number(), line: 0 };
    }
    let (line, gathered) = gather(text, cells * bytes_per_cell);
    match gathered {
        // "An image is filled whole or not touched."
        Err(refusal) => Outcome { number: refusal.number(), line },
        Ok(bytes) => {
            for (place, bytes) in image.iter_mut().zip(bytes.chunks(bytes_per_cell)) {
                // "A value too wide for its cell is loaded", so no bit is dropped.
                *place = cell(low_byte_first(bytes));
            }
            Outcome { number: 0, line }
        }
    }
}

/// The number that at most 8 bytes spell, "low byte first".
fn low_byte_first(bytes: &[u8]) -> u64 {
    bytes.iter().rev().fold(0, |number, byte| number * 256 + u64::from(*byte))
}

#[cfg(test)]
mod tests {
    use super::low_byte_first;

    #[test]
    fn the_first_byte_is_the_low_one() {
        assert_eq!(low_byte_first(&[0x78, 0x56, 0x34, 0x12]), 0x1234_5678);
        assert_eq!(low_byte_first(&[0x34, 0x12]), 0x1234);
        assert_eq!(low_byte_first(&[255, 255, 255, 255]), 0xFFFF_FFFF);
    }
}
