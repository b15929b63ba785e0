//! E8: a word taken from the image for running has spare bits 0, and CND 0 under an unconditional jump or a call.

use crate::assemble::{alu, dst, jp, ldi, op, rt, src, Op, CALL, JUMP, JUMP_ON_CONDITION};
use crate::machine::{recognisable, Machine, ACCEPTED, DONE, HERE, NEXT};
use emulator::{build, event, step, take_apart, JpFields, LdiFields, Reply, Word};

/// A jump to 55H with spare bit D0 set.
const UNUSED_BITS: u32 = 0x500551;

/// A run refused with 18 after so many words.
fn stopped_after(words: u16) -> Reply {
    Reply { number: 18, words, value: 0 }
}

/// A machine whose every program word has unused bits set.
fn worn() -> Machine {
    let mut machine = recognisable();
    machine.program.fill(UNUSED_BITS);
    machine
}

#[test]
fn the_spare_bits_of_a_jump_and_a_call() {
    for brch in [JUMP, CALL] {
        for spare in 1..16 {
            recognisable().word_is_refused(jp(brch, 0, 0x1ff) | spare, 18);
        }
    }
}

/// Whether it would jump or not.
#[test]
fn the_spare_bits_of_a_jump_on_a_condition() {
    for cnd in 0..32 {
        for spare in 1..16 {
            recognisable().word_is_refused(jp(JUMP_ON_CONDITION, cnd, 0x1ff) | spare, 18);
        }
    }
}

#[test]
fn cnd_under_a_jump_and_a_call() {
    for brch in [JUMP, CALL] {
        for cnd in 1..32 {
            for spare in 0..16 {
                recognisable().word_is_refused(jp(brch, cnd, 0x1ff) | spare, 18);
            }
        }
    }
}

/// Under a jump on a condition CND is used: all 32 run.
#[test]
fn cnd_under_a_jump_on_a_condition() {
    for cnd in 0..32 {
        assert_eq!(recognisable().run_word(jp(JUMP_ON_CONDITION, cnd, 0x1ff)), Reply { words: 1, ..DONE });
    }
}

#[test]
fn the_spare_bit_of_ldi() {
    for number in 0..16 {
        for id in [0, 1, 0x1234, 0x8000, 0xffff] {
            recognisable().word_is_refused(ldi(id, number) | 0x10, 18);
            assert_eq!(recognisable().run_word(ldi(id, number)), Reply { words: 1, ..DONE });
        }
    }
}

/// With every unused bit 0 the widest of the other fields run.
#[test]
fn all_other_bits_may_be_set() {
    recognisable().word_changes(0x501ff0, |m| m.registers.pc = 0x1ff);
    recognisable().word_changes(0x541ff0, |m| {
        m.registers.pc = 0x1ff;
        m.registers.stack[2] = NEXT;
        m.registers.depth = 3;
    });
    // Condition 31 asks for RQM 1, which is 0.
    recognisable().word_changes(0x4bfff0, |m| m.registers.pc = NEXT);
    recognisable().word_changes(0x7fffef, |m| {
        m.registers.pc = NEXT;
        m.ram[0x25] = 0xffff;
    });
}

/// The table gives OP and RT no spare bits. Fields that such a word doesn't need are no unused bits.
#[test]
fn op_and_rt_words_have_no_unused_bits() {
    let operand_without_operation = Op { psel: 3, asl: 1, ..Op::default() };
    recognisable().word_changes(op(operand_without_operation), |m| m.registers.pc = NEXT);
    recognisable().word_changes(rt(operand_without_operation), |m| {
        m.registers.pc = 0x0a2;
        m.registers.depth = 1;
    });
    let moves_of_a_loaded_dp = Op { dpl: 3, dphm: 7, src: src::TR, dst: dst::DP, ..Op::default() };
    recognisable().word_changes(op(moves_of_a_loaded_dp), |m| {
        m.registers.pc = NEXT;
        m.registers.dp = 0x7a;
    });
    let move_of_a_loaded_rp = Op { rpdcr: 1, src: src::TR, dst: dst::RP, ..Op::default() };
    recognisable().word_changes(op(move_of_a_loaded_rp), |m| {
        m.registers.pc = NEXT;
        m.registers.rp = 0x07a;
    });
    let operation_that_rests = Op { psel: 3, alu: 15, src: src::TR, dst: dst::A, ..Op::default() };
    recognisable().word_changes(op(operation_that_rests), |m| {
        m.registers.pc = NEXT;
        m.registers.a = 0x7a7a;
    });
}

/// What the words before have done stays, and the refused one neither counts nor changes anything.
#[test]
fn words_before_a_refused_one_stay_done() {
    for refused in [jp(JUMP, 1, 0x100), jp(CALL, 0, 0x100) | 1, jp(JUMP_ON_CONDITION, 0, 0x100) | 8, ldi(0x1234, dst::MEM) | 0x10] {
        let mut machine = recognisable();
        machine.program[0x20] = ldi(0x0001, dst::A);
        machine.program[0x21] = ldi(0x0002, dst::MEM);
        machine.program[0x22] = jp(CALL, 0, 0x80);
        machine.program[0x80] = refused;
        let mut expected = machine.clone();
        expected.registers.pc = 0x80;
        expected.registers.a = 1;
        expected.registers.stack[2] = 0x23;
        expected.registers.depth = 3;
        expected.ram[0x25] = 2;
        assert_eq!(machine.event(0, 10), stopped_after(3));
        assert_eq!(machine, expected);

        // Called again, it stands at the refused word.
        machine.clone().event_replies(0, 65535, stopped_after(0), |_| {});

        // A word without unused bits in its place runs on.
        machine.program[0x80] = 0;
        machine.event_replies(0, 10, Reply { words: 10, ..DONE }, |m| m.registers.pc = 0x8a);
    }
}

#[test]
fn one_word_by_itself() {
    let mut machine = worn();
    let m = &mut machine;
    assert_eq!(step(&mut m.registers, &m.program, &m.rom, &mut m.ram), Err(18));
    assert_eq!(machine, worn());
}

/// Only a word that is taken for running is looked at: a loop of two words runs for ever in an image otherwise worn.
#[test]
fn words_never_fetched_are_not_looked_at() {
    worn().event_changes(0, 0, 0, |_| {});

    let mut machine = worn();
    machine.registers.a = 0;
    machine.program[usize::from(HERE)] = op(Op { alu: alu::INC, ..Op::default() });
    machine.program[usize::from(NEXT)] = jp(JUMP, 0, HERE.into());
    assert_eq!(machine.event(0, 65534), Reply { words: 65534, ..DONE });
    assert_eq!((machine.registers.a, machine.registers.pc), (32767, HERE));
}

/// The word after the last of a count, and the one that a jump goes to, are not fetched yet.
#[test]
fn the_word_after_the_last_is_not_looked_at() {
    let mut machine = worn();
    machine.program[usize::from(HERE)] = 0;
    machine.program[usize::from(NEXT)] = jp(JUMP, 0, 0x80);
    assert_eq!(machine.event(0, 1), Reply { words: 1, ..DONE });
    assert_eq!(machine.event(0, 1), Reply { words: 1, ..DONE });
    machine.event_replies(0, 1, stopped_after(0), |_| {});
}

/// The chip puts in the NOP and the jump of an interrupt: they are taken from no image.
#[test]
fn an_interrupt_looks_at_no_word() {
    let mut machine = worn();
    machine.registers.sr = 0x0080;
    let mut expected = machine.clone();
    expected.registers.pc = 0x100;
    expected.registers.stack[2] = HERE;
    expected.registers.depth = 3;
    expected.registers.sr = 0;
    assert_eq!(machine.event(6, 0), ACCEPTED);
    assert_eq!(machine, expected);
    machine.event_replies(0, 5, stopped_after(0), |_| {});
}

#[test]
fn events_that_fetch_no_word_are_answered() {
    for kind in 1..8 {
        let mut machine = worn();
        machine.registers.sorq = true;
        assert_eq!(machine.event(kind, 0).number, 0, "event {kind}");
    }
}

#[test]
fn taking_apart_and_building_accept_them() {
    let words = [
        (UNUSED_BITS, Word::Jp(JpFields { brch: 0b100, cnd: 0, na: 0x55, spare: 1 })),
        (0x52055f, Word::Jp(JpFields { brch: 0b100, cnd: 16, na: 0x55, spare: 15 })),
        (0x57e550, Word::Jp(JpFields { brch: 0b101, cnd: 31, na: 0x55, spare: 0 })),
        (0x482558, Word::Jp(JpFields { brch: 0b010, cnd: 1, na: 0x55, spare: 8 })),
        (0x624691, Word::Ldi(LdiFields { id: 0x1234, spare: 1, dst: 1 })),
        (0x7fffff, Word::Ldi(LdiFields { id: 65535, spare: 1, dst: 15 })),
    ];
    for (number, word) in words {
        recognisable().word_is_refused(number, 18);
        assert_eq!(take_apart(number), Ok(word));
        assert_eq!(build(&word), Ok(number));
    }
}

/// How many of the 2^23 words are refused with 5 and with 18, from the widths in the table.
///
/// A JP word has BRCH (3 bits), CND (5), NA (9) and spare (4), so each BRCH has 2^18 = 262144 words:
/// - five BRCH are unknown: 5 * 262144 = 1310720 words are refused with 5;
/// - a jump and a call run only with CND 0 and spare 0, which leaves 2^9 = 512 words each: 2 * (262144 - 512) = 523264 are refused;
/// - a jump on a condition runs only with spare 0: 32 * 512 * 15 = 245760 are refused.
///
/// An LDI word has ID (16), spare (1) and DST (4) and runs only with spare 0: 65536 * 16 = 1048576 are refused.
///
/// OP and RT have no unused bits: with 18 are refused 523264 + 245760 + 1048576 = 1817600 words.
///
/// The state has no say in it, as 7, 8 and 9 come later. A refused word leaves it as it was.
#[test]
fn how_many_words_are_refused() {
    let mut full = recognisable();
    full.registers.depth = 4;
    full.rom.fill(65535);
    let mut drained = recognisable();
    drained.registers.depth = 0;
    for machine in [full, drained] {
        let Machine { mut registers, mut program, rom, mut ram, .. } = machine.clone();
        let (mut no_such_branch, mut unused_bits) = (0, 0);
        for word in 0..1 << 23 {
            program[usize::from(HERE)] = word;
            let reply = event(&mut registers, &program, &rom, &mut ram, 0, 1);
            match reply.number {
                5 => no_such_branch += 1,
                18 => unused_bits += 1,
                _ => {
                    registers = machine.registers;
                    ram.copy_from_slice(&machine.ram);
                }
            }
            if reply.number == 18 {
                assert_eq!(reply, stopped_after(0));
                assert_eq!((registers, &ram), (machine.registers, &machine.ram), "{word:06X}H");
            }
        }
        assert_eq!((no_such_branch, unused_bits), (1310720, 1817600));
    }
}
