//! TRB: source 0 and destination 14 of the 77C25, and nothing at all on the 77P20.

use super::assemble::{ldi, mov, op, rt, DST_TRB, SRC_TRB};
use super::machine::{recognisable, NEXT};
use crate::assemble::{alu, dst, psel, src, Op};
use crate::fitting_registers::fitting_registers;
use crate::machine::recognisable as recognisable_77p20;
use emulator::{event, Flags};
use random::Random;

/// Source 0 and destination 0: TRB is on the bus and goes nowhere.
#[test]
fn word_0_changes_pc_only() {
    recognisable().word_changes(0, |m| m.registers.pc = NEXT);
}

#[test]
fn it_keeps_every_value() {
    for value in 0..=65535 {
        let mut machine = recognisable();
        machine.run_word(ldi(value.into(), DST_TRB));
        assert_eq!(machine.registers.trb, value);
        machine.run_word(mov(dst::MEM, SRC_TRB));
        assert_eq!(machine.ram[0x85], value);
    }
}

#[test]
fn from_itself_to_itself() {
    recognisable().word_changes(mov(DST_TRB, SRC_TRB), |m| m.registers.pc = NEXT);
}

/// 1234H + B1B5H = C3E9H: no carry, and no overflow of 4660 - 20043. OV1 was 1, so S1 stays 1 and OV1 too.
#[test]
fn it_is_an_operand_by_the_bus() {
    let fields = Op { psel: psel::BUS, alu: alu::ADD, src: SRC_TRB, ..Op::default() };
    for (word, pc, depth) in [(op(fields), NEXT, 2), (rt(fields), 0x0a2, 1)] {
        recognisable().word_changes(word, |m| {
            m.registers.pc = pc;
            m.registers.depth = depth;
            m.registers.a = 0xc3e9;
            m.registers.flags_a = Flags { s1: true, s0: true, c: false, z: false, ov1: true, ov0: false };
        });
    }
}

/// A as it was before INC goes to TRB.
#[test]
fn it_receives_what_was_before_the_word() {
    let fields = Op { alu: alu::INC, src: src::A, dst: DST_TRB, ..Op::default() };
    recognisable().word_changes(op(fields), |m| {
        m.registers.pc = NEXT;
        m.registers.a = 0x1235;
        m.registers.flags_a = Flags { s1: true, s0: false, c: false, z: false, ov1: true, ov0: false };
        m.registers.trb = 0x1234;
    });
}

/// Destination 14 is the chosen accumulator of nobody: the ALU works.
#[test]
fn the_alu_works_when_trb_is_the_destination() {
    let fields = Op { psel: psel::BUS, alu: alu::OR, asl: 1, src: src::TR, dst: DST_TRB, ..Op::default() };
    // 5678H or 7A7AH is 7E7AH.
    recognisable().word_changes(op(fields), |m| {
        m.registers.pc = NEXT;
        m.registers.b = 0x7e7a;
        m.registers.flags_b = Flags::default();
        m.registers.trb = 0x7a7a;
    });
}

#[test]
fn reset_leaves_it() {
    let mut machine = recognisable();
    machine.event(7, 0);
    assert_eq!(machine.registers.trb, 0xb1b5);
}

#[test]
fn it_fits_whatever_it_holds() {
    for value in [0, 0x8000, 0xffff] {
        let mut machine = recognisable();
        machine.registers.trb = value;
        assert_eq!(machine.event(3, 0).number, 0);
        let mut machine = recognisable_77p20();
        machine.registers.trb = value;
        assert_eq!(machine.event(3, 0).number, 0);
    }
}

/// Two machines that differ in TRB only do the same, and each keeps its own.
#[test]
fn the_77p20_neither_reads_nor_changes_it() {
    let mut random = Random::new(25);
    let program = [0; 512].map(|_: u32| random.next() as u32 % (1 << 23));
    let rom = [0; 512].map(|_: u16| random.word() % 8192);
    for _ in 0..200_000 {
        let first = fitting_registers(&mut random);
        let ram = [0; 128].map(|_: u16| first.a ^ first.l);
        let (kind, value) = if random.one_in(4) { (random.below(8), 0) } else { (0, 1) };
        let mut runs = [first.trb, !first.trb].map(|trb| {
            let (mut registers, mut ram) = (first, ram);
            registers.trb = trb;
            let reply = event(&mut registers, &program, &rom, &mut ram, kind, value);
            assert_eq!(registers.trb, trb);
            (reply, registers, ram)
        });
        runs[1].1.trb = first.trb;
        assert_eq!(runs[0], runs[1]);
    }
}
