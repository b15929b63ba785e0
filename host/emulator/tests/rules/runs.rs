//! Event 0: how many words a call runs, and what a refusal in the middle leaves.

use crate::assemble::{alu, dst, jp, ldi, op, Op, JUMP};
use crate::machine::{recognisable, DONE};
use emulator::{step, Flags, Reply};

/// INC of an A of 0 with all flags 0.
const COUNT_UP: Op = Op { psel: 0, alu: alu::INC, asl: 0, dpl: 0, dphm: 0, rpdcr: 0, src: 0, dst: 0 };

#[test]
fn no_words() {
    let mut machine = recognisable();
    machine.program[0x20] = 0xffff_ffff;
    machine.event_changes(0, 0, 0, |_| {});
}

#[test]
fn every_word_of_a_count_runs() {
    let mut machine = recognisable();
    machine.registers.a = 0;
    machine.registers.flags_a = Flags::default();
    machine.program.fill(op(COUNT_UP));
    assert_eq!(machine.event(0, 1000), Reply { words: 1000, ..DONE });
    assert_eq!(machine.registers.a, 1000);
    assert_eq!(machine.registers.pc, ((0x20 + 1000) % 512) as u16);
}

#[test]
fn the_longest_count() {
    let mut machine = recognisable();
    machine.registers.a = 0;
    machine.registers.flags_a = Flags::default();
    machine.program.fill(op(COUNT_UP));
    assert_eq!(machine.event(0, 65535), Reply { words: 65535, ..DONE });
    assert_eq!(machine.registers.a, 65535);
    assert_eq!(machine.registers.pc, 0x1f);
}

#[test]
fn words_before_a_refused_one_stay_done() {
    let mut machine = recognisable();
    machine.program[0x20] = ldi(0x0001, dst::A);
    machine.program[0x21] = ldi(0x0002, dst::MEM);
    machine.program[0x22] = jp(JUMP, 0, 0x80);
    machine.program[0x80] = 1 << 23;
    let mut expected = machine.clone();
    expected.registers.pc = 0x80;
    expected.registers.a = 1;
    expected.ram[0x25] = 2;
    assert_eq!(machine.event(0, 10), Reply { number: 4, words: 3, value: 0 });
    assert_eq!(machine, expected);

    // Called again, it stands at the refused word.
    assert_eq!(machine.event(0, 10), Reply { number: 4, words: 0, value: 0 });
    assert_eq!(machine, expected);

    // The three words alone are done.
    assert_eq!(machine.event(0, 0), DONE);
}

#[test]
fn one_word_by_itself() {
    let mut machine = recognisable();
    machine.program[0x20] = ldi(0x0001, dst::A);
    machine.program[0x21] = 1 << 23;
    let mut expected = machine.clone();
    expected.registers.pc = 0x21;
    expected.registers.a = 1;
    let m = &mut machine;
    assert_eq!(step(&mut m.registers, &m.program, &m.rom, &mut m.ram), Ok(()));
    assert_eq!(machine, expected);
    let m = &mut machine;
    assert_eq!(step(&mut m.registers, &m.program, &m.rom, &mut m.ram), Err(4));
    assert_eq!(machine, expected);
}
