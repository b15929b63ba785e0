//! Each ALU operation on each accumulator.

use crate::assemble::{op, psel, src, Op};
use crate::machine::{recognisable, Machine, NEXT};
use emulator::Flags;

/// An operation, what it starts from, and what it gives.
struct Row {
    code: u32,
    accumulator: u16,
    operand: u16,
    other_c: bool,
    result: u16,
    c: bool,
    ov0: bool,
}

const fn row(code: u32, accumulator: u16, operand: u16, other_c: u8, result: u16, c: u8, ov0: u8) -> Row {
    Row { code, accumulator, operand, other_c: other_c == 1, result, c: c == 1, ov0: ov0 == 1 }
}

const SUMS: &[Row] = &[
    // SUB
    row(4, 0x0005, 0x0003, 0, 0x0002, 0, 0),
    row(4, 0x0005, 0x0003, 1, 0x0002, 0, 0),
    row(4, 0x0005, 0x0005, 0, 0x0000, 0, 0),
    row(4, 0x0001, 0x0002, 0, 0xffff, 1, 0),
    row(4, 0x8000, 0x0001, 0, 0x7fff, 0, 1),
    row(4, 0x7fff, 0xffff, 0, 0x8000, 1, 1),
    row(4, 0x0000, 0x8000, 0, 0x8000, 1, 1),
    // ADD
    row(5, 0x1234, 0x1111, 0, 0x2345, 0, 0),
    row(5, 0x1234, 0x1111, 1, 0x2345, 0, 0),
    row(5, 0xffff, 0x0001, 0, 0x0000, 1, 0),
    row(5, 0x7fff, 0x0001, 0, 0x8000, 0, 1),
    row(5, 0x8000, 0x8000, 0, 0x0000, 1, 1),
    row(5, 0x8000, 0xffff, 0, 0x7fff, 1, 1),
    // SBB
    row(6, 0x0003, 0x0001, 0, 0x0002, 0, 0),
    row(6, 0x0003, 0x0001, 1, 0x0001, 0, 0),
    row(6, 0x0000, 0x0000, 1, 0xffff, 1, 0),
    row(6, 0x8000, 0x0000, 1, 0x7fff, 0, 1),
    row(6, 0x0000, 0xffff, 1, 0x0000, 1, 0),
    row(6, 0x7fff, 0xffff, 1, 0x7fff, 1, 0),
    row(6, 0x7fff, 0xffff, 0, 0x8000, 1, 1),
    row(6, 0x8000, 0x7fff, 1, 0x0000, 0, 1),
    // ADC
    row(7, 0x0003, 0x0001, 0, 0x0004, 0, 0),
    row(7, 0x0003, 0x0001, 1, 0x0005, 0, 0),
    row(7, 0xffff, 0xffff, 1, 0xffff, 1, 0),
    row(7, 0xffff, 0x0000, 1, 0x0000, 1, 0),
    row(7, 0x8000, 0xffff, 1, 0x8000, 1, 0),
    row(7, 0x8000, 0xffff, 0, 0x7fff, 1, 1),
    row(7, 0x7fff, 0x0000, 1, 0x8000, 0, 1),
    row(7, 0x7fff, 0x7fff, 1, 0xffff, 0, 1),
    // DEC
    row(8, 0x0001, 0x5555, 1, 0x0000, 0, 0),
    row(8, 0x0000, 0x5555, 0, 0xffff, 1, 0),
    row(8, 0x8000, 0x5555, 0, 0x7fff, 0, 1),
    row(8, 0x8001, 0x5555, 0, 0x8000, 0, 0),
    // INC
    row(9, 0x0001, 0x5555, 1, 0x0002, 0, 0),
    row(9, 0xffff, 0x5555, 0, 0x0000, 1, 0),
    row(9, 0x7fff, 0x5555, 0, 0x8000, 0, 1),
    row(9, 0x7ffe, 0x5555, 0, 0x7fff, 0, 0),
];

const OTHERS: &[Row] = &[
    // OR, AND, XOR
    row(1, 0x0f0f, 0x8001, 1, 0x8f0f, 0, 0),
    row(1, 0x0000, 0x0000, 0, 0x0000, 0, 0),
    row(2, 0x0f0f, 0xf0f0, 1, 0x0000, 0, 0),
    row(2, 0xff0f, 0xf0ff, 0, 0xf00f, 0, 0),
    row(3, 0xffff, 0x00ff, 1, 0xff00, 0, 0),
    row(3, 0x1234, 0x1234, 0, 0x0000, 0, 0),
    // CMP
    row(10, 0x00ff, 0x5555, 1, 0xff00, 0, 0),
    row(10, 0xffff, 0x5555, 0, 0x0000, 0, 0),
    // SHR1
    row(11, 0x8001, 0x5555, 0, 0xc000, 1, 0),
    row(11, 0x8002, 0x5555, 1, 0xc001, 0, 0),
    row(11, 0x7fff, 0x5555, 1, 0x3fff, 1, 0),
    row(11, 0x0001, 0x5555, 1, 0x0000, 1, 0),
    row(11, 0xffff, 0x5555, 0, 0xffff, 1, 0),
    // SHL1
    row(12, 0x8000, 0x5555, 0, 0x0000, 1, 0),
    row(12, 0x8000, 0x5555, 1, 0x0001, 1, 0),
    row(12, 0x4000, 0x5555, 0, 0x8000, 0, 0),
    row(12, 0x7fff, 0x5555, 1, 0xffff, 0, 0),
    // SHL2
    row(13, 0x0000, 0x5555, 0, 0x0003, 0, 0),
    row(13, 0xc000, 0x5555, 1, 0x0003, 0, 0),
    row(13, 0x2000, 0x5555, 0, 0x8003, 0, 0),
    // SHL4
    row(14, 0x0000, 0x5555, 0, 0x000f, 0, 0),
    row(14, 0xf000, 0x5555, 1, 0x000f, 0, 0),
    row(14, 0x0fff, 0x5555, 0, 0xffff, 0, 0),
    // XCHG
    row(15, 0x12f4, 0x5555, 1, 0xf412, 0, 0),
    row(15, 0x0000, 0x5555, 0, 0x0000, 0, 0),
];

/// The accumulator and flags that a word with this ASL chooses, and the other's flags.
fn sides(machine: &mut Machine, asl: u32) -> (&mut u16, &mut Flags, &mut Flags) {
    let r = &mut machine.registers;
    match asl {
        0 => (&mut r.a, &mut r.flags_a, &mut r.flags_b),
        _ => (&mut r.b, &mut r.flags_b, &mut r.flags_a),
    }
}

/// Runs a row from flags that are all wrong, but for OV1 as given.
fn check(row: &Row, asl: u32, ov1_before: bool, ov1: bool) {
    let s0 = row.result >= 0x8000;
    let z = row.result == 0;
    let after = Flags { s1: s0, s0, c: row.c, z, ov1, ov0: row.ov0 };
    let before = Flags { s1: !s0, s0: !s0, c: !row.c, z: !z, ov1: ov1_before, ov0: !row.ov0 };

    let mut machine = recognisable();
    machine.registers.tr = row.operand;
    let (accumulator, flags, other) = sides(&mut machine, asl);
    (*accumulator, *flags, other.c) = (row.accumulator, before, row.other_c);
    let word = op(Op { psel: psel::BUS, alu: row.code, asl, src: src::TR, ..Op::default() });
    machine.word_changes(word, |m| {
        m.registers.pc = NEXT;
        let (accumulator, flags, _) = sides(m, asl);
        (*accumulator, *flags) = (row.result, after);
    });
}

#[test]
fn sums_from_ov1_0() {
    for row in SUMS {
        check(row, 0, false, row.ov0);
        check(row, 1, false, row.ov0);
    }
}

#[test]
fn others_clear_ov1() {
    for row in OTHERS {
        for asl in [0, 1] {
            check(row, asl, false, false);
            check(row, asl, true, false);
        }
    }
}

#[test]
fn none_changes_no_flag() {
    for asl in [0, 1] {
        for select in 0..4 {
            let word = op(Op { psel: select, asl, src: src::TR, ..Op::default() });
            recognisable().word_changes(word, |m| m.registers.pc = NEXT);
        }
    }
}

/// Sums from OV1 1: S1 stays, and OV1 stays unless OV0 is 1 and S0 differs from S1.
#[test]
fn sums_from_ov1_1() {
    // Code, accumulator, operand, S1; then the result, C, OV0 and OV1.
    let rows = [
        (5, 0x0001, 0x0001, false, 0x0002, false, false, true),
        (5, 0x0001, 0x0001, true, 0x0002, false, false, true),
        (5, 0xfff0, 0x0001, false, 0xfff1, false, false, true),
        (5, 0xfff0, 0x0001, true, 0xfff1, false, false, true),
        (5, 0x7fff, 0x0001, true, 0x8000, false, true, true),
        (5, 0x7fff, 0x0001, false, 0x8000, false, true, false),
        (4, 0x8000, 0x0001, false, 0x7fff, false, true, true),
        (4, 0x8000, 0x0001, true, 0x7fff, false, true, false),
        (6, 0x8000, 0x0002, true, 0x7ffe, false, true, false),
        (7, 0x7fff, 0x0002, false, 0x8001, false, true, false),
        (8, 0x8000, 0x5555, true, 0x7fff, false, true, false),
        (8, 0x8000, 0x5555, false, 0x7fff, false, true, true),
        (9, 0x7fff, 0x5555, false, 0x8000, false, true, false),
        (9, 0x7fff, 0x5555, true, 0x8000, false, true, true),
    ];
    for (code, from, operand, s1, result, c, ov0, ov1) in rows {
        for asl in [0, 1] {
            let mut machine = recognisable();
            machine.registers.tr = operand;
            let (accumulator, flags, other) = sides(&mut machine, asl);
            (*accumulator, other.c) = (from, false);
            *flags = Flags { s1, ov1: true, ..Flags::default() };
            let word = op(Op { psel: psel::BUS, alu: code, asl, src: src::TR, ..Op::default() });
            machine.word_changes(word, |m| {
                m.registers.pc = NEXT;
                let (accumulator, flags, _) = sides(m, asl);
                *accumulator = result;
                *flags = Flags { s1, s0: result >= 0x8000, c, z: result == 0, ov1, ov0 };
            });
        }
    }
}
