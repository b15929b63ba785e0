//! The bench cases, each by its number.

use crate::assemble::{alu, dst, op, psel, src, Op};
use crate::fitting_registers::fitting_registers;
use crate::machine::{empty, recognisable, DONE};
use emulator::{Flags, Reply};
use random::Random;

const ONE_WORD: Reply = Reply { words: 1, ..DONE };

/// ADD of the bus, which TR feeds, to A.
fn add_tr_to_a() -> u32 {
    op(Op { psel: psel::BUS, alu: alu::ADD, src: src::TR, ..Op::default() })
}

#[test]
fn case_1_word_0_changes_pc_only() {
    let mut random = Random::new(1);
    for _ in 0..1000 {
        let mut machine = recognisable();
        machine.registers = fitting_registers(&mut random);
        machine.ram.fill_with(|| random.word());
        machine.word_changes(0, |m| m.registers.pc = (m.registers.pc + 1) % 512);
    }
}

#[test]
fn case_2_a_jump_and_a_load() {
    recognisable().word_changes(0x501000, |m| m.registers.pc = 0x100);
    recognisable().word_changes(0x624681, |m| {
        m.registers.pc = 0x21;
        m.registers.a = 0x1234;
    });
    let mut machine = recognisable();
    machine.registers.a = 0;
    machine.run_word(0x624681);
    assert_eq!(machine.registers.a, 0x1234);
}

#[test]
fn case_3_products() {
    for (k, l, m, n) in [(0x8000, 0x8000, 0x8000, 0), (0xffff, 1, 0xffff, 0xfffe)] {
        for (select, expected) in [(psel::M, m), (psel::N, n)] {
            let mut machine = empty();
            machine.registers.k = k;
            machine.registers.l = l;
            assert_eq!(machine.run_word(op(Op { psel: select, alu: alu::ADD, ..Op::default() })), ONE_WORD);
            assert_eq!(machine.registers.a, expected);
        }
    }
}

#[test]
fn case_4_an_overflow_taken_back() {
    let mut machine = empty();
    machine.registers.a = 0x7fff;
    machine.registers.tr = 0x7fff;
    assert_eq!(machine.run_word(add_tr_to_a()), ONE_WORD);
    assert_eq!(machine.registers.a, 0xfffe);
    let first = Flags { s1: true, s0: true, c: false, z: false, ov1: true, ov0: true };
    assert_eq!(machine.registers.flags_a, first);

    machine.registers.tr = 0x8000;
    assert_eq!(machine.run_word(add_tr_to_a()), ONE_WORD);
    assert_eq!(machine.registers.a, 0x7ffe);
    let second = Flags { s1: true, s0: false, c: true, z: false, ov1: false, ov0: true };
    assert_eq!(machine.registers.flags_a, second);
}

#[test]
fn case_5_the_lowest_number_doubled() {
    let mut machine = empty();
    machine.registers.a = 0x8000;
    machine.registers.tr = 0x8000;
    assert_eq!(machine.run_word(add_tr_to_a()), ONE_WORD);
    assert_eq!(machine.registers.a, 0);
    let flags = Flags { s1: false, s0: false, c: true, z: true, ov1: true, ov0: true };
    assert_eq!(machine.registers.flags_a, flags);
}

#[test]
fn case_6_shifts() {
    for (code, before, after, c) in [(11, 0x8001, 0xc000, true), (13, 1, 7, false), (14, 1, 0x1f, false)] {
        let mut machine = empty();
        machine.registers.a = before;
        assert_eq!(machine.run_word(op(Op { alu: code, ..Op::default() })), ONE_WORD);
        assert_eq!((machine.registers.a, machine.registers.flags_a.c), (after, c));
    }
}

#[test]
fn case_7_pointers() {
    let mut machine = empty();
    machine.registers.dp = 0x0f;
    assert_eq!(machine.run_word(op(Op { dpl: 1, dphm: 1, rpdcr: 1, ..Op::default() })), ONE_WORD);
    assert_eq!(machine.registers.dp, 0x10);
    assert_eq!(machine.registers.rp, 511);
}

#[test]
fn case_8_the_serial_word_reversed() {
    let mut machine = empty();
    machine.registers.si = 1;
    assert_eq!(machine.run_word(op(Op { src: src::SIL, dst: dst::A, ..Op::default() })), ONE_WORD);
    assert_eq!(machine.registers.a, 0x8000);
}

#[test]
fn case_9_the_host_reads_low_then_high() {
    let mut machine = empty();
    machine.registers.dr = 0x1234;
    assert_eq!(machine.event(1, 0), Reply { value: 0x34, ..DONE });
    assert_eq!(machine.event(1, 0), Reply { value: 0x12, ..DONE });
}

#[test]
fn case_10_the_full_allowance() {
    let mut machine = empty();
    machine.registers.k = 0xffff;
    machine.registers.l = 1;
    for _ in 0..3 {
        assert_eq!(machine.run_word(op(Op { psel: psel::M, alu: alu::ADD, ..Op::default() })), ONE_WORD);
    }
    assert_eq!(machine.registers.a, 0xfffd);
    assert!(!machine.registers.flags_a.ov1);

    // In 32768ths: the exact sum is three times -1, the answer is -3 whole.
    let exact = -3;
    let answer = -3 * 32768;
    assert_eq!(exact - answer, 98301);
    assert_eq!(3 * 32767, 98301);
}
