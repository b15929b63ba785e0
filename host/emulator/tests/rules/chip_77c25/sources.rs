//! The sources that are wider here or not there on the smaller chip, seen through TR.

use super::assemble::{mov, rt, SRC_TRB};
use super::machine::{recognisable, C25};
use crate::assemble::{dst, src, Op};
use crate::sources::gives;

#[test]
fn temporary_register_b() {
    gives(C25, SRC_TRB, 0xb1b5);
}

#[test]
fn pointers_fill_with_zeros() {
    gives(C25, src::DP, 0x0085);
    gives(C25, src::RP, 0x03a7);
}

/// Cell 3A7H holds C3A7H, and nothing is shifted.
#[test]
fn ro_is_the_cell_as_it_is() {
    gives(C25, src::RO, 0xc3a7);
}

#[test]
fn ro_of_every_cell_value() {
    for cell in 0..=65535 {
        let mut machine = recognisable();
        machine.rom[0x3a7] = cell;
        machine.run_word(mov(dst::TR, src::RO));
        assert_eq!(machine.registers.tr, cell);
    }
}

#[test]
fn mem_is_ram_at_dp() {
    gives(C25, src::MEM, 0x4085);
}

#[test]
fn rt_reads_data_rom_too() {
    recognisable().word_changes(rt(Op { src: src::RO, dst: dst::TR, ..Op::default() }), |m| {
        m.registers.tr = 0xc3a7;
        m.registers.depth = 1;
        m.registers.pc = 0x0a2;
    });
}
