//! What the chip holds, at random: a register, a data ROM cell, flags.

use emulator::Flags;
use random::Random;

/// Values where a sign, a carry or an overflow turns.
pub const CORNERS: [u16; 16] =
    [0x0000, 0x0001, 0x0002, 0x00ff, 0x0100, 0x3fff, 0x4000, 0x5555, 0x7ffe, 0x7fff, 0x8000, 0x8001, 0xaaaa, 0xc000, 0xfffe, 0xffff];

pub trait ChipValues {
    /// A register's 16 bits: one time in three a corner value.
    fn register(&mut self) -> u16;

    /// Any 13 bits.
    fn cell(&mut self) -> u16;

    fn flags(&mut self) -> Flags;
}

impl ChipValues for Random {
    fn register(&mut self) -> u16 {
        if self.one_in(3) {
            self.pick(&CORNERS)
        } else {
            self.next() as u16
        }
    }

    fn cell(&mut self) -> u16 {
        self.word() % 0x2000
    }

    fn flags(&mut self) -> Flags {
        let bits = self.next();
        let flag = |place: u32| bits >> place & 1 == 1;
        Flags { s1: flag(0), s0: flag(1), c: flag(2), z: flag(3), ov1: flag(4), ov0: flag(5) }
    }
}
