//! PC, RP and DP over 2048 words, 1024 cells and 256 RAM cells.

use super::assemble::op;
use super::machine::{recognisable, C25, NEXT};
use crate::assemble::{dst, src, Op};
use crate::machine::DONE;
use crate::pointers::{dp_moves, low_dp_moves};
use emulator::Reply;

#[test]
fn pc_goes_up_by_one_and_from_2047_to_0() {
    for (from, to) in [(0, 1), (255, 256), (510, 511), (511, 512), (512, 513), (1023, 1024), (2046, 2047), (2047, 0)] {
        let mut machine = recognisable();
        machine.registers.pc = from;
        machine.word_changes(0, |m| m.registers.pc = to);
    }
}

#[test]
fn a_run_over_all_words_comes_back() {
    let mut machine = recognisable();
    machine.registers.pc = 0;
    machine.event_replies(0, 2048, Reply { words: 2048, ..DONE }, |_| {});
}

/// The loaded value stays, and so does the value that RO read.
#[test]
fn rpdcr_is_ignored_if_rp_is_the_destination() {
    let word = op(Op { rpdcr: 1, src: src::RO, dst: dst::RP, ..Op::default() });
    // C3A7H kept to ten bits.
    recognisable().word_changes(word, |m| (m.registers.pc, m.registers.rp) = (NEXT, 0x3a7));
    let mut machine = recognisable();
    machine.registers.rp = 0x012;
    machine.rom[0x012] = 0xfffe;
    machine.word_changes(word, |m| (m.registers.pc, m.registers.rp) = (NEXT, 0x3fe));
}

#[test]
fn low_dp_goes_round_without_carry_into_the_row() {
    low_dp_moves(C25, 1, [(0x80, 0x81), (0x8f, 0x80), (0xff, 0xf0), (0x7f, 0x70)]);
    low_dp_moves(C25, 2, [(0x80, 0x8f), (0xf0, 0xff), (0x00, 0x0f)]);
    low_dp_moves(C25, 3, [(0x8a, 0x80), (0xff, 0xf0)]);
}

/// DPH-M has four bits, and DP bits 7 to 4 take them.
#[test]
fn dph_m_of_0_to_15() {
    let rows = [0x50, 0x40, 0x70, 0x60, 0x10, 0x00, 0x30, 0x20, 0xd0, 0xc0, 0xf0, 0xe0, 0x90, 0x80, 0xb0, 0xa0];
    for (dphm, row) in (0..16).zip(rows) {
        dp_moves(C25, 0, dphm, 0x5a, row + 0x0a);
    }
}

#[test]
fn dph_m_8_to_f_from_the_upper_half() {
    for (dphm, to) in (0x8..0x10).zip([0x05, 0x15, 0x25, 0x35, 0x45, 0x55, 0x65, 0x75]) {
        dp_moves(C25, 0, dphm, 0x85, to);
    }
}

#[test]
fn both_fields_act_in_one_word() {
    for (dphm, from, to) in [(0x1, 0x0f, 0x10), (0xf, 0xff, 0x00), (0xe, 0x29, 0xca)] {
        dp_moves(C25, 1, dphm, from, to);
    }
    dp_moves(C25, 2, 0xf, 0x00, 0xff);
    dp_moves(C25, 3, 0x8, 0xda, 0x50);
}

#[test]
fn both_are_ignored_if_dp_is_the_destination() {
    let fields = Op { dpl: 1, dphm: 0xf, src: src::TR, dst: dst::DP, ..Op::default() };
    recognisable().word_changes(op(fields), |m| (m.registers.pc, m.registers.dp) = (NEXT, 0x7a));
    let mut machine = recognisable();
    machine.registers.tr = 0xfffe;
    machine.word_changes(op(fields), |m| (m.registers.pc, m.registers.dp) = (NEXT, 0xfe));
}

/// The move of the word still uses the old DP: cell 85H, and for KLM C5H.
#[test]
fn dp_moves_after_the_move_of_its_word() {
    recognisable().word_changes(op(Op { dpl: 1, dphm: 0x8, src: src::TR, dst: dst::MEM, ..Op::default() }), |m| {
        m.registers.pc = NEXT;
        m.ram[0x85] = 0x7a7a;
        m.registers.dp = 0x06;
    });
    recognisable().word_changes(op(Op { dpl: 1, dphm: 0x8, src: src::MEM, dst: dst::KLM, ..Op::default() }), |m| {
        m.registers.pc = NEXT;
        m.registers.k = 0x40c5;
        m.registers.l = 0x4085;
        m.registers.dp = 0x06;
    });
}

#[test]
fn every_ram_cell_is_reached() {
    for dp in 0..256 {
        let mut machine = recognisable();
        machine.registers.dp = dp;
        machine.word_changes(op(Op { src: src::MEM, dst: dst::A, ..Op::default() }), |m| {
            m.registers.pc = NEXT;
            m.registers.a = 0x4000 + dp;
        });
    }
}

#[test]
fn every_data_rom_cell_is_reached() {
    for rp in 0..1024 {
        let mut machine = recognisable();
        machine.registers.rp = rp;
        machine.word_changes(op(Op { src: src::RO, dst: dst::KLR, ..Op::default() }), |m| {
            m.registers.pc = NEXT;
            m.registers.k = 0xc000 + rp;
            m.registers.l = 0xc000 + rp;
        });
    }
}
