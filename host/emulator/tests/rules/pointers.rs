//! DP and RP at the end of a word, PC from word to word.

use crate::assemble::{dst, jp, ldi, op, op_on, rt, rt_on, src, Op, JUMP_ON_CONDITION};
use crate::machine::{next, recognisable, recognisable_on, C25, NEXT, P20};
use emulator::Chip;

/// By an OP and by an RT word.
#[track_caller]
pub fn dp_moves(chip: Chip, dpl: u32, dphm: u32, from: u16, to: u16) {
    let fields = Op { dpl, dphm, ..Op::default() };
    let mut machine = recognisable_on(chip);
    machine.registers.dp = from;
    machine.clone().word_changes(op_on(chip, fields), |m| (m.registers.pc, m.registers.dp) = (next(chip), to));
    machine.word_changes(rt_on(chip, fields), |m| (m.registers.pc, m.registers.depth, m.registers.dp) = (0x0a2, 1, to));
}

/// One DPL for several DP, before and after.
#[track_caller]
pub fn low_dp_moves<const ROWS: usize>(chip: Chip, dpl: u32, rows: [(u16, u16); ROWS]) {
    for (from, to) in rows {
        dp_moves(chip, dpl, 0, from, to);
    }
}

#[test]
fn dpl_moves_within_the_row() {
    low_dp_moves(P20, 0, [(0x25, 0x25)]);
    low_dp_moves(P20, 1, [(0x25, 0x26), (0x26, 0x27), (0x2e, 0x2f), (0x2f, 0x20), (0x7f, 0x70)]);
    low_dp_moves(P20, 2, [(0x25, 0x24), (0x24, 0x23), (0x21, 0x20), (0x20, 0x2f), (0x00, 0x0f)]);
    low_dp_moves(P20, 3, [(0x25, 0x20), (0x7f, 0x70)]);
}

#[test]
fn dphm_changes_the_row() {
    for (dphm, from, to) in [(1, 0x25, 0x35), (2, 0x25, 0x05), (4, 0x25, 0x65), (7, 0x25, 0x55), (7, 0x7a, 0x0a)] {
        dp_moves(P20, 0, dphm, from, to);
    }
}

#[track_caller]
fn rp_goes_down<const ROWS: usize>(chip: Chip, rows: [(u16, u16); ROWS]) {
    for (from, to) in rows {
        let mut machine = recognisable_on(chip);
        machine.registers.rp = from;
        machine.word_changes(op_on(chip, Op { rpdcr: 1, ..Op::default() }), |m| (m.registers.pc, m.registers.rp) = (next(chip), to));
    }
}

#[test]
fn rpdcr_takes_one_from_rp() {
    rp_goes_down(P20, [(0x1a7, 0x1a6), (0, 511), (511, 510), (256, 255)]);
    rp_goes_down(C25, [(0, 1023), (1, 0), (2, 1), (511, 510), (512, 511), (1023, 1022)]);
}

#[test]
fn a_loaded_dp_does_not_move_but_rp_does() {
    for dpl in 0..4 {
        for dphm in 0..8 {
            let word = op(Op { dpl, dphm, rpdcr: 1, src: src::TR, dst: dst::DP, ..Op::default() });
            recognisable().word_changes(word, |m| {
                m.registers.pc = NEXT;
                m.registers.dp = 0x7a;
                m.registers.rp = 0x1a6;
            });
        }
    }
}

#[test]
fn a_loaded_rp_does_not_move_but_dp_does() {
    let word = op(Op { dpl: 1, dphm: 4, rpdcr: 1, src: src::TR, dst: dst::RP, ..Op::default() });
    recognisable().word_changes(word, |m| {
        m.registers.pc = NEXT;
        m.registers.rp = 0x07a;
        m.registers.dp = 0x66;
    });
}

#[test]
fn rt_moves_pointers_too() {
    recognisable().word_changes(rt(Op { dpl: 2, dphm: 1, rpdcr: 1, ..Op::default() }), |m| {
        m.registers.dp = 0x34;
        m.registers.rp = 0x1a6;
        m.registers.depth = 1;
        m.registers.pc = 0x0a2;
    });
}

#[test]
fn pc_goes_from_511_to_0() {
    // OP, an untaken jump on C of A (which is 0), and LDI.
    for word in [0, jp(JUMP_ON_CONDITION, 1, 0x55), ldi(0x7a7a, dst::TR)] {
        let mut machine = recognisable();
        machine.registers.pc = 511;
        machine.word_changes(word, |m| m.registers.pc = 0);
    }
}
