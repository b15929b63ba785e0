//! Refusals 4, 5 and 18 of a word, and that 6 and 7 never occur.

use super::assemble::{jp, ldi, op, rt, CALL, JDPLN0, JMP, JNCA, SRC_TRB};
use super::machine::{recognisable, C25, HERE, NEXT};
use crate::assemble::{dst, src, Op};
use crate::machine::DONE;
use crate::refusals_of_words::at_depth;
use emulator::{step_on, Reply};

#[test]
fn refusal_4_a_word_of_2_to_the_24() {
    for word in [1 << 24, 1 << 25, 1 << 31, u32::MAX] {
        recognisable().word_is_refused(word, 4);
    }
    // The last word below with its spare bits 0 is an LDI to MEM.
    recognisable().word_changes((1 << 24) - 1 - 0x30, |m| {
        m.registers.pc = NEXT;
        m.ram[0x85] = 0xffff;
    });
}

/// Whatever NA, the spare bits and the depth are.
#[test]
fn refusal_5_a_code_that_is_not_listed() {
    for code in [0x000, 0x001, 0x081, 0x0b5, 0x0bf, 0x0c0, 0x101, 0x141, 0x180, 0x1ff] {
        for na in [0, 0x55, 0x7ff] {
            for spare in 0..4 {
                for depth in 0..5 {
                    at_depth(C25, depth).word_is_refused(jp(code, na) | spare, 5);
                }
            }
        }
    }
}

#[test]
fn refusal_18_the_spare_bits_of_a_jp_word() {
    for code in [JMP, CALL, JNCA, JDPLN0] {
        for na in [0, 0x7ff] {
            for spare in 1..4 {
                recognisable().word_is_refused(jp(code, na) | spare, 18);
            }
            assert_eq!(recognisable().run_word(jp(code, na)), Reply { words: 1, ..DONE });
        }
    }
}

/// A jump that would not be taken is refused too.
#[test]
fn refusal_18_of_an_untaken_jump() {
    let mut machine = recognisable();
    machine.registers.flags_a.c = true;
    machine.clone().word_changes(jp(JNCA, 0x55), |m| m.registers.pc = NEXT);
    machine.word_is_refused(jp(JNCA, 0x55) | 2, 18);
}

#[test]
fn refusal_18_the_spare_bits_of_ldi() {
    for number in 0..16 {
        for id in [0, 1, 0x1234, 0x8000, 0xffff] {
            for spare in 1..4 {
                recognisable().word_is_refused(ldi(id, number) | spare << 4, 18);
            }
            assert_eq!(recognisable().run_word(ldi(id, number)), Reply { words: 1, ..DONE });
        }
    }
}

/// An OP or RT word has no spare bits: fields that it doesn't need may hold anything.
#[test]
fn op_and_rt_words_have_no_unused_bits() {
    recognisable().word_changes(op(Op { psel: 3, asl: 1, ..Op::default() }), |m| m.registers.pc = NEXT);
    let moves_of_a_loaded_dp = Op { dpl: 3, dphm: 15, src: src::TR, dst: dst::DP, ..Op::default() };
    recognisable().word_changes(op(moves_of_a_loaded_dp), |m| (m.registers.pc, m.registers.dp) = (NEXT, 0x7a));
}

/// Source 0 is TRB: with every destination, operation and operand, it runs.
#[test]
fn refusal_6_never_occurs() {
    for number in 0..16 {
        for code in 0..16 {
            for select in 0..4 {
                for asl in [0, 1] {
                    let fields = Op { psel: select, alu: code, asl, src: SRC_TRB, dst: number, ..Op::default() };
                    assert_eq!(recognisable().run_word(op(fields)), Reply { words: 1, ..DONE });
                    assert_eq!(recognisable().run_word(rt(fields)), Reply { words: 1, ..DONE });
                }
            }
        }
    }
}

/// Every value of the cell is a value that it can hold.
#[test]
fn refusal_7_never_occurs() {
    for cell in [0x1fff, 0x2000, 0x7fff, 0x8000, 0xffff] {
        let mut machine = recognisable();
        machine.rom.fill(cell);
        for number in 0..16 {
            for word in [Op { src: src::RO, dst: number, ..Op::default() }, Op { src: number, dst: dst::KLR, ..Op::default() }] {
                assert_eq!(machine.clone().run_word(op(word)), Reply { words: 1, ..DONE });
                assert_eq!(machine.clone().run_word(rt(word)), Reply { words: 1, ..DONE });
            }
        }
        machine.word_changes(ldi(0x1234, dst::KLR), |m| {
            m.registers.pc = NEXT;
            m.registers.k = 0x1234;
            m.registers.l = cell;
        });
    }
}

/// What the words before have done stays, and the refused one neither counts nor changes anything.
#[test]
fn words_before_a_refused_one_stay_done() {
    for (refused, number) in [(1 << 24, 4), (jp(0, 0), 5), (jp(JMP, 0) | 1, 18), (ldi(0, dst::A) | 0x20, 18)] {
        let mut machine = recognisable();
        machine.program[0x620] = ldi(0x0001, 14);
        machine.program[0x621] = ldi(0x0002, dst::MEM);
        machine.program[0x622] = jp(CALL, 0x780);
        machine.program[0x780] = refused;
        machine.event_replies(0, 10, Reply { number, words: 3, value: 0 }, |m| {
            m.registers.pc = 0x780;
            m.registers.trb = 1;
            m.registers.stack[2] = 0x623;
            m.registers.depth = 3;
            m.ram[0x85] = 2;
        });
    }
}

#[test]
fn one_word_by_itself() {
    let mut machine = recognisable();
    machine.program[usize::from(HERE)] = jp(JMP, 0x7ff);
    let m = &mut machine;
    assert_eq!(step_on(C25, &mut m.registers, &m.program, &m.rom, &mut m.ram), Ok(()));
    assert_eq!(m.registers.pc, 0x7ff);
    m.program[0x7ff] = jp(0x1ff, 0);
    let before = m.clone();
    assert_eq!(step_on(C25, &mut m.registers, &m.program, &m.rom, &mut m.ram), Err(5));
    assert_eq!(machine, before);
}
