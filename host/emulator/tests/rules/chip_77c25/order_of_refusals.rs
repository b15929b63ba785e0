//! The lowest number that applies is given, but 18 comes after 5. What remains of the order here is 1, 2, 3, 4, 5, 18, 8 and 9.

use super::assemble::{jp, ldi, rt, CALL};
use super::machine::recognisable;
use crate::assemble::{dst, src, Op};

#[test]
fn a_wide_word_before_all_that_its_low_bits_would_meet() {
    let mut machine = recognisable();
    machine.registers.depth = 0;
    for low in [jp(0, 0), jp(0, 0) | 3, rt(Op::default()), ldi(0, dst::KLR) | 0x30] {
        machine.clone().word_is_refused(1 << 24 | low, 4);
    }
}

/// Also 5 at a full stack: 141H is not the call.
#[test]
fn a_code_not_listed_before_spare_bits_and_a_full_stack() {
    let mut machine = recognisable();
    machine.registers.depth = 4;
    machine.clone().word_is_refused(jp(0x141, 0x55) | 3, 5);
    machine.word_is_refused(jp(0x141, 0x55), 5);
}

#[test]
fn spare_bits_before_a_full_stack() {
    let mut machine = recognisable();
    machine.registers.depth = 4;
    for spare in 1..4 {
        machine.clone().word_is_refused(jp(CALL, 0x55) | spare, 18);
    }
    machine.word_is_refused(jp(CALL, 0x55), 9);
}

/// What would be 6 or 7 before 8 on the smaller chip is 8 here.
#[test]
fn nothing_before_an_empty_stack() {
    let mut machine = recognisable();
    machine.registers.depth = 0;
    machine.rom.fill(0xffff);
    machine.clone().word_is_refused(rt(Op { src: 0, dst: dst::KLR, ..Op::default() }), 8);
    machine.word_is_refused(rt(Op { src: src::RO, ..Op::default() }), 8);
}
