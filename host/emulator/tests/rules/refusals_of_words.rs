//! Refusals 4 to 9 of a word, and 4 of taking apart.

use crate::assemble::{call_on, dst, jp, ldi, mov, op, psel, rt, rt_on, src, Op};
use crate::machine::{recognisable, recognisable_on, Machine, C25, CHIPS, NEXT, P20};
use emulator::{take_apart, Chip};

#[test]
fn refusal_4_a_word_of_2_to_the_23() {
    for word in [1 << 23, 1 << 24, 1 << 31, u32::MAX] {
        recognisable().word_is_refused(word, 4);
        assert_eq!(take_apart(word), Err(4));
    }
    // The last word below with its spare bit 0 is an LDI to MEM.
    recognisable().word_changes((1 << 23) - 1 - 0x10, |m| {
        m.registers.pc = NEXT;
        m.ram[0x25] = 0xffff;
    });
}

#[test]
fn refusal_5_no_such_branch() {
    for brch in [0b000, 0b001, 0b011, 0b110, 0b111] {
        for cnd in 0..32 {
            recognisable().word_is_refused(jp(brch, cnd, 0x55), 5);
        }
    }
}

/// SRC none, and a destination that wants the bus.
#[test]
fn refusal_6_a_destination_without_source() {
    for number in 0..16 {
        let fields = Op { src: src::NONE, dst: number, ..Op::default() };
        if number == dst::NONE || number == dst::ALSO_NONE {
            recognisable().word_changes(op(fields), |m| m.registers.pc = NEXT);
        } else {
            recognisable().word_is_refused(op(fields), 6);
            recognisable().word_is_refused(rt(fields), 6);
        }
    }
}

/// SRC none, and an operation of 1 to 7 on the bus.
#[test]
fn refusal_6_an_operation_on_the_bus_without_source() {
    for code in 0..16 {
        for select in 0..4 {
            for asl in [0, 1] {
                for number in [dst::NONE, dst::ALSO_NONE] {
                    let fields = Op { psel: select, alu: code, asl, src: src::NONE, dst: number, ..Op::default() };
                    if (1..=7).contains(&code) && select == psel::BUS {
                        recognisable().word_is_refused(op(fields), 6);
                        recognisable().word_is_refused(rt(fields), 6);
                    } else {
                        assert_eq!(recognisable().run_word(op(fields)).number, 0);
                        assert_eq!(recognisable().run_word(rt(fields)).number, 0);
                    }
                }
            }
        }
    }
}

fn with_cell(value: u16) -> Machine {
    let mut machine = recognisable();
    machine.rom[0x1a7] = value;
    machine
}

#[test]
fn refusal_7_a_data_rom_cell_of_8192() {
    for cell in [8192, 65535] {
        for number in 0..16 {
            with_cell(cell).word_is_refused(mov(number, src::RO), 7);
        }
        with_cell(cell).word_is_refused(mov(dst::KLR, src::TR), 7);
        with_cell(cell).word_is_refused(rt(Op { src: src::RO, ..Op::default() }), 7);
        with_cell(cell).word_is_refused(ldi(0x1234, dst::KLR), 7);
    }
}

/// Who doesn't use the cell isn't refused, nor is a wide cell elsewhere looked at.
#[test]
fn a_wide_cell_that_is_not_used() {
    for source in (1..16).filter(|&source| source != src::RO) {
        assert_eq!(with_cell(65535).run_word(mov(dst::NONE, source)).number, 0);
    }
    for number in (0..16).filter(|&number| number != dst::KLR) {
        assert_eq!(with_cell(65535).run_word(mov(number, src::TR)).number, 0);
        assert_eq!(with_cell(65535).run_word(ldi(0x1234, number)).number, 0);
    }
    let mut machine = recognisable();
    machine.rom.fill(65535);
    machine.rom[0x1a7] = 8191;
    assert_eq!(machine.run_word(mov(dst::KLR, src::RO)).number, 0);
    assert_eq!((machine.registers.k, machine.registers.l), (0xfff8, 0xfff8));
}

pub fn at_depth(chip: Chip, depth: u8) -> Machine {
    let mut machine = recognisable_on(chip);
    machine.registers.depth = depth;
    machine
}

#[test]
fn refusal_8_a_return_at_depth_0() {
    for (chip, dphm) in [(P20, 0), (C25, 0), (C25, 8)] {
        let works = Op { alu: 9, dpl: 1, dphm, rpdcr: 1, src: src::DR, dst: dst::MEM, ..Op::default() };
        at_depth(chip, 0).word_is_refused(rt_on(chip, Op::default()), 8);
        at_depth(chip, 0).word_is_refused(rt_on(chip, works), 8);
    }
}

#[test]
fn refusal_9_a_call_at_depth_4() {
    for chip in CHIPS {
        at_depth(chip, 4).word_is_refused(call_on(chip, 0x55), 9);
    }
}
