//! Jumps, calls and returns.

use crate::assemble::{alu, call_on, dst, jump_on, op, psel, rt, rt_on, src, Op};
use crate::machine::{next, recognisable, recognisable_on, C25, DONE, NEXT, P20};
use emulator::{Flags, Reply};

#[test]
fn a_jump_goes_to_na() {
    for (chip, words) in [(P20, 512), (C25, 2048)] {
        for na in 0..words {
            recognisable_on(chip).word_changes(jump_on(chip, na.into()), |m| m.registers.pc = na);
        }
    }
}

#[test]
fn a_call_writes_the_cell_numbered_by_the_depth() {
    for (chip, na) in [(P20, 0x0ee), (C25, 0x7ee)] {
        for depth in 0..4 {
            let mut machine = recognisable_on(chip);
            machine.registers.depth = depth;
            machine.word_changes(call_on(chip, na.into()), |m| {
                m.registers.pc = na;
                m.registers.stack[usize::from(depth)] = next(chip);
                m.registers.depth = depth + 1;
            });
        }
    }
}

#[test]
fn a_call_pushes_the_word_after_it_and_0_after_the_last() {
    for (chip, pc, pushed) in [(P20, 511, 0), (C25, 2047, 0), (C25, 511, 512)] {
        let mut machine = recognisable_on(chip);
        machine.registers.pc = pc;
        machine.word_changes(call_on(chip, 3), |m| {
            m.registers.pc = 3;
            m.registers.stack[2] = pushed;
            m.registers.depth = 3;
        });
    }
}

#[test]
fn a_return_takes_the_cell_below_and_leaves_it() {
    for (chip, cells) in [(P20, [0x111, 0x0a2, 0x1b3, 0x0c4]), (C25, [0x711, 0x0a2, 0x5b3, 0x3c4])] {
        for (depth, cell) in (1..5).zip(cells) {
            let mut machine = recognisable_on(chip);
            machine.registers.depth = depth;
            machine.word_changes(rt_on(chip, Op::default()), |m| {
                m.registers.pc = cell;
                m.registers.depth = depth - 1;
            });
        }
    }
}

#[test]
fn a_return_does_all_that_an_op_word_does() {
    let fields = Op { psel: psel::BUS, alu: alu::ADD, asl: 1, dpl: 1, dphm: 1, rpdcr: 1, src: src::SIM, dst: dst::MEM };
    // 5678H + 8003H.
    recognisable().word_changes(rt(fields), |m| {
        m.registers.b = 0xd67b;
        m.registers.flags_b = Flags { s1: true, s0: true, ..Flags::default() };
        m.registers.siack = false;
        m.ram[0x25] = 0x8003;
        m.registers.dp = 0x36;
        m.registers.rp = 0x1a6;
        m.registers.pc = 0x0a2;
        m.registers.depth = 1;
    });
    recognisable().word_changes(op(fields), |m| {
        m.registers.b = 0xd67b;
        m.registers.flags_b = Flags { s1: true, s0: true, ..Flags::default() };
        m.registers.siack = false;
        m.ram[0x25] = 0x8003;
        m.registers.dp = 0x36;
        m.registers.rp = 0x1a6;
        m.registers.pc = NEXT;
    });
}

#[test]
fn four_calls_and_four_returns() {
    let small = (P20, [0x20, 0x40, 0x60, 0x80, 0xa0], [0x21, 0x41, 0x61, 0x81]);
    let large = (C25, [0x620, 0x7ff, 0x400, 0x200, 0x5a0], [0x621, 0x000, 0x401, 0x201]);
    for (chip, path, stack) in [small, large] {
        let mut machine = recognisable_on(chip);
        machine.registers.depth = 0;
        for (from, to) in path.into_iter().zip(&path[1..]) {
            machine.program[usize::from(from)] = call_on(chip, (*to).into());
        }
        assert_eq!(machine.event(0, 4), Reply { words: 4, ..DONE });
        assert_eq!((machine.registers.pc, machine.registers.depth), (path[4], 4));
        assert_eq!(machine.registers.stack, stack);

        for from in [path[4], stack[3], stack[2], stack[1]] {
            machine.program[usize::from(from)] = rt_on(chip, Op::default());
        }
        assert_eq!(machine.event(0, 4), Reply { words: 4, ..DONE });
        assert_eq!((machine.registers.pc, machine.registers.depth), (stack[0], 0));
        assert_eq!(machine.registers.stack, stack);
    }
}
