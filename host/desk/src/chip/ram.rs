//! The RAM as DP sees it, in rows of sixteen cells: DP's bits from 4 on are the row, its bits 3 to 0 the column.

use crate::chip::device::Device;

pub const COLUMNS: usize = 16;

/// Room for the RAM of either chip.
#[derive(Clone, Copy, Debug, PartialEq, Eq)]
pub struct Ram([u16; bemulatsho::upd77c25::RAM]);

impl Default for Ram {
    fn default() -> Ram {
        Ram([0; bemulatsho::upd77c25::RAM])
    }
}

impl Ram {
    /// The cells that a chip has.
    #[inline]
    pub fn of(&self, device: Device) -> &[u16] {
        &self.0[..device.ram()]
    }

    #[inline]
    pub fn of_mut(&mut self, device: Device) -> &mut [u16] {
        &mut self.0[..device.ram()]
    }
}

/// The first cell of each row.
pub fn rows(ram: &[u16]) -> impl Iterator<Item = usize> {
    (0..ram.len()).step_by(COLUMNS)
}

/// The bits of the 77P20's DP that choose the row of a cell.
pub fn row_bits(cell: usize) -> String {
    format!("{:03b}", cell / COLUMNS)
}

/// The columns, each over the last digit of its cells.
pub fn header() -> String {
    let digits: String = (0..COLUMNS).map(|digit| format!("    {digit:X} ")).collect();
    format!("RAM{digits}")
}

/// A row from its first cell on, with a `*` after whatever is not as it was last. The cell that is pointed at stands in brackets; the closing
/// one takes the place of the next cell's space.
pub fn row(from: usize, now: &[u16], last: &[u16], pointer: Option<usize>) -> String {
    let mut row = format!("{from:02X}H");
    for (cell, value) in now.iter().enumerate().skip(from).take(COLUMNS) {
        row.push(if pointer == Some(cell) { '[' } else { bracket_after(cell > from && pointer == Some(cell - 1)) });
        row.push_str(&format!("{value:04X}"));
        row.push(mark(last.get(cell) != Some(value)));
    }
    row.push(bracket_after(pointer == Some(from + COLUMNS - 1)));
    row
}

pub fn mark(changed: bool) -> char {
    if changed {
        '*'
    } else {
        ' '
    }
}

fn bracket_after(pointed: bool) -> char {
    if pointed {
        ']'
    } else {
        ' '
    }
}

#[cfg(test)]
mod tests {
    use super::*;

    #[test]
    fn the_header_stands_over_the_last_digit_of_each_cell() {
        let header = header();
        let zeros = [0; bemulatsho::RAM];
        let row = row(0x10, &zeros, &zeros, None);
        for cell in 0..COLUMNS {
            assert_eq!(header.as_bytes()[4 + 6 * cell + 3] as char, format!("{cell:X}").chars().next().unwrap());
            assert_eq!(&row[4 + 6 * cell..8 + 6 * cell], "0000");
        }
    }

    #[test]
    fn the_row_of_a_cell_is_in_bits_6_to_4_of_dp() {
        assert_eq!(
            rows(&[0; bemulatsho::RAM]).map(row_bits).collect::<Vec<String>>(),
            ["000", "001", "010", "011", "100", "101", "110", "111"]
        );
        assert_eq!((row_bits(0x25), row_bits(0x7f)), ("010".to_string(), "111".to_string()));
    }
}
