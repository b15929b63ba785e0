//! The RAMs that are written and read back: corners by turns, and any in between.

use bemulatsho::RAM;
use random::Random;

listed!(
    /// What a RAM holds.
    Shape: Zeros, Ones, OwnNumbers, OneBit, HighBytes, LowBytes, Any
);

use Shape::*;

/// Each corner has its turn once in so many RAMs; the others are any.
const ROUND: u64 = 16;

/// The bits of a RAM.
pub const BITS: usize = 16 * RAM;

/// The shape of the RAM number `number`.
pub fn shape(number: u64) -> Shape {
    Shape::ALL.get((number % ROUND) as usize).copied().unwrap_or(Any)
}

/// Fills the RAM number `number`; of those with one bit set the number decides which, so that each has its turn.
pub fn fill(random: &mut Random, number: u64, ram: &mut [u16; RAM]) {
    match shape(number) {
        Zeros => ram.fill(0),
        Ones => ram.fill(0xffff),
        OwnNumbers => (0..).zip(ram).for_each(|(place, cell)| *cell = place),
        OneBit => {
            let bit = (number / ROUND) as usize % BITS;
            ram.fill(0);
            ram[bit / 16] = 1 << (bit % 16);
        }
        HighBytes => any(random, 0xff00, ram),
        LowBytes => any(random, 0x00ff, ram),
        Any => any(random, 0xffff, ram),
    }
}

fn any(random: &mut Random, mask: u16, ram: &mut [u16; RAM]) {
    ram.iter_mut().for_each(|cell| *cell = random.word() & mask);
}
