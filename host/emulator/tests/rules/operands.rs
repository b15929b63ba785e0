//! P-select: RAM, bus, M, N.

use crate::assemble::{alu, dst, op, psel, src, Op};
use crate::machine::recognisable;

/// OR into an A of 0 shows the operand.
fn operand(select: u32) -> u16 {
    let mut machine = recognisable();
    machine.registers.a = 0;
    machine.run_word(op(Op { psel: select, alu: alu::OR, src: src::TR, ..Op::default() }));
    machine.registers.a
}

#[test]
fn ram_is_the_cell_at_dp() {
    assert_eq!(operand(psel::RAM), 0x4025);
}

#[test]
fn bus_is_what_the_source_gives() {
    assert_eq!(operand(psel::BUS), 0x7a7a);
}

/// 0301H times 0500H is 769 times 1280, that is 30 times 32768 and 1280 left.
#[test]
fn m_and_n_follow_from_k_and_l() {
    assert_eq!(operand(psel::M), 30);
    assert_eq!(operand(psel::N), 2560);
}

/// -769 times 1280 is -31 times 32768 and 31488 left: M is rounded down.
#[test]
fn m_is_rounded_down_at_negatives() {
    for (select, expected) in [(psel::M, 0xffe1), (psel::N, 2 * 31488)] {
        let mut machine = recognisable();
        machine.registers.a = 0;
        machine.registers.k = 0xfcff;
        machine.run_word(op(Op { psel: select, alu: alu::OR, ..Op::default() }));
        assert_eq!(machine.registers.a, expected);
    }
}

/// K and L loaded by a word count from the next word on.
#[test]
fn a_word_after_the_load_sees_the_new_product() {
    let mut machine = recognisable();
    machine.registers.a = 0;
    machine.registers.tr = 0x4000;
    let load_k_and_add_m = op(Op { psel: psel::M, alu: alu::ADD, src: src::TR, dst: dst::K, ..Op::default() });
    machine.run_word(load_k_and_add_m);
    assert_eq!((machine.registers.a, machine.registers.k), (30, 0x4000));
    // 4000H times 0500H is half of 1280 in 32768ths.
    machine.run_word(load_k_and_add_m);
    assert_eq!(machine.registers.a, 30 + 640);
}
