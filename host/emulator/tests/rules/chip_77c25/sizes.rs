//! The sizes of the two chips.

use super::machine::C25;
use crate::machine::{DONE, P20};
use emulator::{event_on, Registers, Reply, Sizes};

#[test]
fn the_sizes() {
    assert_eq!(C25.sizes(), Sizes { words: 2048, word_bits: 24, cells: 1024, cell_bits: 16, ram: 256, stack: 4 });
    assert_eq!(P20.sizes(), Sizes { words: 512, word_bits: 23, cells: 512, cell_bits: 13, ram: 128, stack: 4 });
}

/// Registers that fit both chips: the lengths decide.
#[test]
fn each_chip_wants_its_own_lengths() {
    let (large, small) = ((2048, 1024, 256), (512, 512, 128));
    for (chip, lengths, number) in [(C25, large, 0), (C25, small, 1), (P20, small, 0), (P20, large, 1)] {
        let (words, cells, ram_cells) = lengths;
        let mut registers = Registers::default();
        let reply = event_on(chip, &mut registers, &vec![0; words], &vec![0; cells], &mut vec![0; ram_cells], 3, 0);
        assert_eq!(reply, Reply { number, ..DONE });
    }
}
