//! The trial desk differs from the rules in the time of DPH-M and in nothing else.

use crate::assemble::{dst, jp, ldi, op, rt, src, Op, CALL, JUMP};
use crate::fitting_registers::fitting_registers;
use crate::machine::{recognisable, Machine, ACCEPTED, DONE, HERE, NEXT};
use emulator::{trial, Reply};
use random::Random;

const DPH_M: u32 = 7 << 9;

/// Puts one word at PC and runs it on the trial desk.
fn run_on_trial_desk(machine: &mut Machine, word: u32) -> Reply {
    machine.program[usize::from(machine.registers.pc)] = word;
    trial::event(&mut machine.registers, &machine.program, &machine.rom, &mut machine.ram, 0, 1)
}

/// The machine after one word by the rules, and after the same word on the trial desk.
#[track_caller]
fn both(word: u32) -> (Machine, Machine) {
    let (mut chip, mut desk) = (recognisable(), recognisable());
    assert_eq!(chip.run_word(word), Reply { words: 1, ..DONE });
    assert_eq!(run_on_trial_desk(&mut desk, word), Reply { words: 1, ..DONE });
    (chip, desk)
}

#[test]
fn mem_as_source_is_read_in_the_other_row() {
    let (chip, desk) = both(op(Op { dphm: 1, src: src::MEM, dst: dst::TR, ..Op::default() }));
    assert_eq!((chip.registers.tr, desk.registers.tr), (0x4025, 0x4035));
    assert_eq!((chip.registers.dp, desk.registers.dp), (0x35, 0x35));
    assert_eq!((chip.registers.pc, desk.registers.pc), (NEXT, NEXT));
}

#[test]
fn mem_as_destination_is_stored_in_the_other_row() {
    let (chip, desk) = both(op(Op { dphm: 1, src: src::TR, dst: dst::MEM, ..Op::default() }));
    assert_eq!((chip.ram[0x25], chip.ram[0x35]), (0x7a7a, 0x4035));
    assert_eq!((desk.ram[0x25], desk.ram[0x35]), (0x4025, 0x7a7a));
    assert_eq!((chip.registers.dp, desk.registers.dp), (0x35, 0x35));
}

#[test]
fn the_column_still_moves_at_the_end() {
    let (chip, desk) = both(op(Op { dpl: 1, dphm: 4, src: src::MEM, dst: dst::TR, ..Op::default() }));
    assert_eq!((chip.registers.tr, desk.registers.tr), (0x4025, 0x4065));
    assert_eq!((chip.registers.dp, desk.registers.dp), (0x66, 0x66));
}

#[test]
fn rp_still_moves_at_the_end() {
    let (chip, desk) = both(op(Op { dphm: 1, rpdcr: 1, src: src::RO, dst: dst::TR, ..Op::default() }));
    assert_eq!((chip.registers.tr, desk.registers.tr), (0x8d38, 0x8d38));
    assert_eq!(chip, desk);
}

#[test]
fn a_loaded_dp_ignores_dphm_on_both() {
    let (chip, desk) = both(op(Op { dphm: 1, src: src::MEM, dst: dst::DP, ..Op::default() }));
    assert_eq!((chip.registers.dp, desk.registers.dp), (0x25, 0x25));
    assert_eq!(chip, desk);
}

#[test]
fn an_rt_word_has_the_same_fault() {
    let (chip, desk) = both(rt(Op { dphm: 2, src: src::MEM, dst: dst::TR, ..Op::default() }));
    assert_eq!((chip.registers.tr, desk.registers.tr), (0x4025, 0x4005));
    assert_eq!((chip.registers.pc, desk.registers.pc), (0x0a2, 0x0a2));
}

#[test]
fn a_refused_word_leaves_dp_as_it_was() {
    let word = op(Op { dphm: 1, src: src::NONE, dst: dst::TR, ..Op::default() });
    let mut desk = recognisable();
    assert_eq!(run_on_trial_desk(&mut desk, word), Reply { number: 6, ..DONE });
    let mut before = recognisable();
    before.program[usize::from(HERE)] = word;
    assert_eq!(desk, before);
}

#[test]
fn unused_bits_are_refused_on_both() {
    for word in [jp(JUMP, 1, 0x80), jp(CALL, 0, 0x80) | 1, ldi(0x1234, dst::A) | 0x10] {
        let (mut chip, mut desk) = (recognisable(), recognisable());
        assert_eq!(chip.run_word(word), Reply { number: 18, ..DONE });
        assert_eq!(run_on_trial_desk(&mut desk, word), Reply { number: 18, ..DONE });
        assert_eq!(chip, desk);
    }
}

#[test]
fn without_dphm_both_agree() {
    let mut random = Random::new(77);
    let mut refused = 0;
    for _ in 0..20_000 {
        let mut chip = recognisable();
        chip.registers = fitting_registers(&mut random);
        let mut word = random.below(1 << 23);
        if word < 1 << 22 {
            word &= !DPH_M;
        }
        let mut desk = chip.clone();
        let reply = chip.run_word(word);
        assert_eq!(run_on_trial_desk(&mut desk, word), reply, "{word:06X}H");
        assert_eq!(chip, desk, "{word:06X}H");
        refused += usize::from(reply.number != 0);
    }
    assert!(refused < 10_000, "{refused} of the words were refused");
}

#[test]
fn events_that_fetch_no_word_agree() {
    let mut random = Random::new(20);
    for _ in 0..2_000 {
        let mut chip = recognisable();
        chip.registers = fitting_registers(&mut random);
        let mut desk = chip.clone();
        let (kind, value) = (1 + random.below(8), random.below(300) * random.below(2));
        let reply = chip.event(kind, value);
        let on_trial_desk = trial::event(&mut desk.registers, &desk.program, &desk.rom, &mut desk.ram, kind, value);
        assert_eq!((on_trial_desk, desk), (reply, chip), "event {kind} {value}");
    }
}

#[test]
fn interrupts_count_the_same_words() {
    for (sr, depth, reply) in [(0x0080, 3, ACCEPTED), (0x0000, 3, DONE), (0x0000, 4, DONE), (0x0080, 4, Reply { number: 9, ..DONE })] {
        let mut desk = recognisable();
        desk.registers.sr = sr;
        desk.registers.depth = depth;
        assert_eq!(trial::event(&mut desk.registers, &desk.program, &desk.rom, &mut desk.ram, 6, 0), reply);
    }
}
