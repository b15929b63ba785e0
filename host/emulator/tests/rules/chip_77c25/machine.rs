//! A 77C25 whose registers and cells all hold something recognisable, and mostly nothing that would fit the 77P20.

use crate::machine;
pub use crate::machine::{Machine, C25};
use emulator::Registers;

/// Where a recognisable machine stands, and the word after that.
pub const HERE: u16 = 0x620;
pub const NEXT: u16 = 0x621;

/// RAM cell n holds 4000H + n, data ROM cell n holds C000H + n, every program word is 0. What is not listed is as on the 77P20.
pub fn recognisable() -> Machine {
    let small = machine::recognisable().registers;
    Machine {
        chip: C25,
        registers: Registers { pc: HERE, stack: [0x711, 0x0a2, 0x5b3, 0x3c4], trb: 0xb1b5, dp: 0x85, rp: 0x3a7, ..small },
        program: vec![0; 2048],
        rom: (0xc000..0xc400).collect(),
        ram: (0x4000..0x4100).collect(),
    }
}
