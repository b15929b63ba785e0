//! The chosen accumulator as a destination.

use crate::assemble::{alu, dst, ldi, op, psel, src, Op};
use crate::machine::{recognisable, NEXT};
use emulator::Flags;

/// The ALU does nothing and all flags stay, whatever the operation.
#[test]
fn the_alu_rests_if_its_accumulator_is_the_destination() {
    for code in 0..16 {
        for select in 0..4 {
            let fields = Op { psel: select, alu: code, src: src::TR, ..Op::default() };
            recognisable().word_changes(op(Op { asl: 0, dst: dst::A, ..fields }), |m| {
                m.registers.pc = NEXT;
                m.registers.a = 0x7a7a;
            });
            recognisable().word_changes(op(Op { asl: 1, dst: dst::B, ..fields }), |m| {
                m.registers.pc = NEXT;
                m.registers.b = 0x7a7a;
            });
        }
    }
}

#[test]
fn the_other_accumulator_can_be_the_destination() {
    let fields = Op { psel: psel::BUS, alu: alu::INC, src: src::TR, ..Op::default() };
    // A has OV1 1 and S1 1, which stay.
    recognisable().word_changes(op(Op { asl: 0, dst: dst::B, ..fields }), |m| {
        m.registers.pc = NEXT;
        m.registers.a = 0x1235;
        m.registers.flags_a = Flags { s1: true, ov1: true, ..Flags::default() };
        m.registers.b = 0x7a7a;
    });
    recognisable().word_changes(op(Op { asl: 1, dst: dst::A, ..fields }), |m| {
        m.registers.pc = NEXT;
        m.registers.b = 0x5679;
        m.registers.flags_b = Flags::default();
        m.registers.a = 0x7a7a;
    });
}

/// Moves and loads leave all flags.
#[test]
fn a_load_sets_no_flag() {
    for (number, value) in [(dst::A, 0x0000), (dst::B, 0x8000)] {
        recognisable().word_changes(ldi(value, number), |m| {
            m.registers.pc = NEXT;
            match number {
                dst::A => m.registers.a = 0x0000,
                _ => m.registers.b = 0x8000,
            }
        });
    }
}
