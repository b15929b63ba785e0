//! The lowest number that applies is given, but 18 comes after 5 and before 6.

use crate::assemble::{alu, dst, jp, ldi, op, psel, rt, src, Op, CALL, JUMP};
use crate::machine::{recognisable, recognisable_on, C25, CHIPS, P20};

#[test]
fn a_wrong_length_before_a_register_and_a_kind() {
    for (chip, words) in [(P20, 512), (C25, 2048)] {
        let mut machine = recognisable_on(chip);
        machine.registers.pc = words;
        machine.program.pop();
        machine.event_is_refused(8, 1, 1);
    }
}

#[test]
fn a_register_before_a_kind_and_a_value() {
    for (chip, ram_cells) in [(P20, 128), (C25, 256)] {
        let mut machine = recognisable_on(chip);
        machine.registers.dp = ram_cells;
        machine.clone().event_is_refused(8, 0, 2);
        machine.clone().event_is_refused(1, 1, 2);
        machine.event_is_refused(0, 65536, 2);
    }
}

#[test]
fn a_value_before_what_the_event_would_meet() {
    for chip in CHIPS {
        let mut machine = recognisable_on(chip);
        machine.registers.sr = 0x0080;
        machine.registers.depth = 4;
        machine.program.fill(u32::MAX);
        machine.clone().event_is_refused(5, 1, 3);
        machine.clone().event_is_refused(6, 1, 3);
        machine.event_is_refused(0, 65536, 3);
    }
}

#[test]
fn a_missing_source_before_a_wide_cell_and_an_empty_stack() {
    let mut machine = recognisable();
    machine.registers.depth = 0;
    machine.rom[0x1a7] = 8192;
    let no_source_for_klr = Op { src: src::NONE, dst: dst::KLR, ..Op::default() };
    machine.clone().word_is_refused(op(no_source_for_klr), 6);
    machine.clone().word_is_refused(rt(no_source_for_klr), 6);
    let no_source_for_alu = Op { psel: psel::BUS, alu: alu::ADD, ..Op::default() };
    machine.word_is_refused(rt(no_source_for_alu), 6);
}

#[test]
fn a_wide_cell_before_an_empty_stack() {
    let mut machine = recognisable();
    machine.registers.depth = 0;
    machine.rom[0x1a7] = 8192;
    machine.clone().word_is_refused(rt(Op { src: src::RO, ..Op::default() }), 7);
    machine.word_is_refused(rt(Op { src: src::TR, dst: dst::KLR, ..Op::default() }), 7);
}

#[test]
fn a_wide_word_before_all_that_its_low_bits_would_meet() {
    let mut machine = recognisable();
    machine.registers.depth = 0;
    machine.rom[0x1a7] = 8192;
    let low_bits = [jp(0, 0, 0), rt(Op { dst: dst::KLR, ..Op::default() }), rt(Op::default()), jp(JUMP, 1, 0), ldi(0, dst::KLR) | 0x10];
    for low in low_bits {
        machine.clone().word_is_refused(1 << 23 | low, 4);
    }
}

#[test]
fn no_such_branch_even_at_depth_4() {
    let mut machine = recognisable();
    machine.registers.depth = 4;
    machine.word_is_refused(jp(0b111, 0, 0), 5);
}

#[test]
fn a_length_a_register_and_a_value_before_unused_bits() {
    let mut machine = recognisable();
    machine.program.fill(jp(JUMP, 1, 0) | 1);
    let mut shorter = machine.clone();
    shorter.program.pop();
    shorter.event_is_refused(0, 1, 1);

    machine.clone().event_is_refused(0, 65536, 3);
    machine.registers.rp = 512;
    machine.event_is_refused(0, 1, 2);
}

/// Whatever its CND and its spare bits are, at every depth.
#[test]
fn no_such_branch_before_unused_bits() {
    for brch in [0b000, 0b001, 0b011, 0b110, 0b111] {
        for unused in (0..32).flat_map(|cnd| (0..16).map(move |spare| jp(0, cnd, 0) | spare)) {
            for depth in [0, 4] {
                let mut machine = recognisable();
                machine.registers.depth = depth;
                machine.word_is_refused(jp(brch, 0, 0x55) | unused, 5);
            }
        }
    }
}

/// Of 6 to 9 a word with unused bits can meet 7, as an LDI, and 9, as a call: an OP or RT word has no unused bits.
#[test]
fn unused_bits_before_a_wide_cell() {
    let mut machine = recognisable();
    machine.rom[0x1a7] = 8192;
    machine.clone().word_is_refused(ldi(0x1234, dst::KLR) | 0x10, 18);
    machine.word_is_refused(ldi(0x1234, dst::KLR), 7);
}

#[test]
fn unused_bits_before_a_full_stack() {
    let mut machine = recognisable();
    machine.registers.depth = 4;
    for unused in [jp(CALL, 1, 0x55), jp(CALL, 31, 0x55), jp(CALL, 0, 0x55) | 1, jp(CALL, 0, 0x55) | 8, jp(CALL, 16, 0x55) | 2] {
        machine.clone().word_is_refused(unused, 18);
    }
    machine.word_is_refused(jp(CALL, 0, 0x55), 9);
}
