//! The stack. Refusals 8 and 9 have made sure that there is a cell to pop or to push.

use crate::device::STACK;
use crate::registers::Registers;

/// Whether no cell is left to push.
pub fn is_full(registers: &Registers) -> bool {
    usize::from(registers.depth) == STACK
}

/// Writes the cell numbered by the depth, then raises the depth.
pub fn push(registers: &mut Registers, address: u16) {
    registers.stack[usize::from(registers.depth)] = address;
    registers.depth += 1;
}

/// Lowers the depth, then takes the cell so numbered and leaves it as it is.
pub fn pop(registers: &mut Registers) -> u16 {
    registers.depth -= 1;
    registers.stack[usize::from(registers.depth)]
}
