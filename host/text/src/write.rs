//! A preset's text into a lent buffer.

use crate::refusal::Refusal;

/// "the 128 RAM cells"
const CELLS: usize = 128;
/// "records of sixteen bytes"
const CELLS_PER_RECORD: usize = 8;
/// A colon, eight digits before the data, two for each of sixteen bytes and for the check byte, and a line feed.
const LINE: usize = 1 + 8 + 2 * 16 + 2 + 1;
const RECORDS: usize = 16 * LINE;
const END: &[u8] = b":00000001FF\n";
/// "716 characters"
const LENGTH: usize = RECORDS + END.len();

/// 0 and the text's length, or the refusal's number and length 0
#[derive(Clone, Copy, Debug, PartialEq, Eq)]
pub struct Writing {
    pub number: u8,
    pub length: usize,
}

/// "sixteen records of sixteen bytes and then `:00000001FF`, in capitals, lines ended by a line feed"
pub fn write_preset(ram: &[u16], text: &mut [u8]) -> Writing {
    // "A buffer shorter than the text, or a RAM that isn't 128 long: refusal 1 and no byte written"
    if ram.len() != CELLS || text.len() < LENGTH {
        return Writing { number: Refusal::LentLength.number(), length: 0 };
    }
    // "bytes past the text stay as lent"
    let (records, end) = text[..LENGTH].split_at_mut(RECORDS);
    for (number, (line, cells)) in (0..).zip(records.chunks_exact_mut(LINE).zip(ram.chunks_exact(CELLS_PER_RECORD))) {
        write_line(line, 16 * number, cells);
    }
    end.copy_from_slice(END);
    Writing { number: 0, length: LENGTH }
}

/// `address` is the low byte alone: the last one is 00F0.
fn write_line(line: &mut [u8], address: u8, cells: &[u16]) {
    line[..9].copy_from_slice(b":1000??00");
    line[5..7].copy_from_slice(&digits(address));
    let mut sum = 16u8.wrapping_add(address);
    for (place, cell) in line[9..41].chunks_exact_mut(4).zip(cells) {
        // "low byte first"
        let (low, high) = ((cell % 256) as u8, (cell / 256) as u8);
        place[..2].copy_from_slice(&digits(low));
        place[2..].copy_from_slice(&digits(high));
        sum = sum.wrapping_add(low).wrapping_add(high);
    }
    // "the sum of all bytes from LL to CC is 0 modulo 256"
    line[41..43].copy_from_slice(&digits(0u8.wrapping_sub(sum)));
    line[43] = b'\n';
}

/// The high digit and the low one, "in capitals".
fn digits(byte: u8) -> [u8; 2] {
    [byte / 16, byte % 16].map(|value| b"0123456789ABCDEF"[usize::from(value)])
}

#[cfg(test)]
mod tests {
    use super::*;

    #[test]
    fn digits_are_capitals_and_the_high_one_comes_first() {
        assert_eq!([0x01, 0x23, 0x45, 0x67, 0x89, 0xAB, 0xCD, 0xEF].map(digits).concat(), b"0123456789ABCDEF");
        assert_eq!([0x10, 0x32, 0x54, 0x76, 0x98, 0xBA, 0xDC, 0xFE].map(digits).concat(), b"1032547698BADCFE");
    }

    /// 10 + 00 + F0 + 00 and the data 34 + 12 + EF + BE + 01 + 80 are 374 in hexadecimal, and 374 + 8C is 400.
    #[test]
    fn a_line_by_hand() {
        let mut line = [b'?'; LINE];
        write_line(&mut line, 0xF0, &[0x1234, 0xBEEF, 0, 0, 0, 0, 0, 0x8001]);
        assert_eq!(0x10 + 0xF0 + 0x34 + 0x12 + 0xEF + 0xBE + 0x01 + 0x80 + 0x8C, 0x400);
        assert_eq!(&line, b":1000F0003412EFBE0000000000000000000001808C\n");
    }

    /// 10 + F0 are 100, and nothing is left to add.
    #[test]
    fn a_check_byte_may_be_0() {
        let mut line = [b'?'; LINE];
        write_line(&mut line, 0x00, &[0x00F0, 0, 0, 0, 0, 0, 0, 0]);
        assert_eq!(&line, b":10000000F000000000000000000000000000000000\n");
    }
}
