//! Everything is read from the state before the word.

use crate::assemble::{alu, dst, mov, op, psel, src, Op};
use crate::machine::{recognisable, NEXT};
use emulator::Flags;

/// A's flags after a sum with a small positive result and no overflow: OV1 1 and S1 1 stay.
const STILL_OVER: Flags = Flags { s1: true, s0: false, c: false, z: false, ov1: true, ov0: false };

#[test]
fn the_bus_carries_the_old_accumulator() {
    let word = op(Op { psel: psel::BUS, alu: alu::ADD, src: src::A, dst: dst::TR, ..Op::default() });
    recognisable().word_changes(word, |m| {
        m.registers.pc = NEXT;
        m.registers.a = 0x2468;
        m.registers.flags_a = STILL_OVER;
        m.registers.tr = 0x1234;
    });
}

#[test]
fn sgn_is_read_before_the_alu_sets_s1() {
    // OR makes S1 0, but the word still sees 1.
    let word = op(Op { psel: psel::BUS, alu: alu::OR, src: src::SGN, dst: dst::TR, ..Op::default() });
    recognisable().word_changes(word, |m| {
        m.registers.pc = NEXT;
        m.registers.a = 0x7fff;
        m.registers.flags_a = Flags::default();
        m.registers.tr = 0x7fff;
    });
}

#[test]
fn the_operand_from_ram_is_the_old_cell() {
    let word = op(Op { psel: psel::RAM, alu: alu::ADD, src: src::TR, dst: dst::MEM, ..Op::default() });
    recognisable().word_changes(word, |m| {
        m.registers.pc = NEXT;
        m.registers.a = 0x5259;
        m.registers.flags_a = STILL_OVER;
        m.ram[0x25] = 0x7a7a;
    });
}

#[test]
fn ram_is_written_at_the_old_dp() {
    let word = op(Op { dpl: 1, dphm: 4, src: src::TR, dst: dst::MEM, ..Op::default() });
    recognisable().word_changes(word, |m| {
        m.registers.pc = NEXT;
        m.registers.dp = 0x66;
        m.ram[0x25] = 0x7a7a;
    });
}

#[test]
fn a_loaded_dp_does_not_serve_the_same_word() {
    let word = op(Op { psel: psel::RAM, alu: alu::ADD, src: src::TR, dst: dst::DP, ..Op::default() });
    recognisable().word_changes(word, |m| {
        m.registers.pc = NEXT;
        m.registers.a = 0x5259;
        m.registers.flags_a = STILL_OVER;
        m.registers.dp = 0x7a;
    });
}

#[test]
fn klm_uses_the_old_dp_and_the_old_k() {
    let word = op(Op { dpl: 3, src: src::K, dst: dst::KLM, ..Op::default() });
    recognisable().word_changes(word, |m| {
        m.registers.pc = NEXT;
        m.registers.dp = 0x20;
        m.registers.k = 0x4065;
        m.registers.l = 0x0301;
    });
}

#[test]
fn klr_uses_the_old_rp_and_the_old_l() {
    let word = op(Op { rpdcr: 1, src: src::L, dst: dst::KLR, ..Op::default() });
    recognisable().word_changes(word, |m| {
        m.registers.pc = NEXT;
        m.registers.rp = 0x1a6;
        m.registers.k = 0x0500;
        m.registers.l = 0x8d38;
    });
}

#[test]
fn klr_and_ro_use_the_same_cell() {
    let word = op(Op { rpdcr: 1, src: src::RO, dst: dst::KLR, ..Op::default() });
    recognisable().word_changes(word, |m| {
        m.registers.pc = NEXT;
        m.registers.rp = 0x1a6;
        m.registers.k = 0x8d38;
        m.registers.l = 0x8d38;
    });
}

#[test]
fn pointers_are_read_before_they_move() {
    let word = op(Op { dpl: 1, rpdcr: 1, src: src::DP, dst: dst::TR, ..Op::default() });
    recognisable().word_changes(word, |m| {
        m.registers.pc = NEXT;
        m.registers.tr = 0x25;
        m.registers.dp = 0x26;
        m.registers.rp = 0x1a6;
    });
    let word = op(Op { dpl: 1, rpdcr: 1, src: src::RP, dst: dst::TR, ..Op::default() });
    recognisable().word_changes(word, |m| {
        m.registers.pc = NEXT;
        m.registers.tr = 0x1a7;
        m.registers.dp = 0x26;
        m.registers.rp = 0x1a6;
    });
}

#[test]
fn the_serial_word_goes_through() {
    recognisable().word_changes(mov(dst::SOL, src::SIL), |m| {
        m.registers.pc = NEXT;
        m.registers.so = 0x8003;
        m.registers.siack = false;
        m.registers.sorq = true;
        m.registers.soack = false;
    });
}
