//! E3: an accepted interrupt makes two words, every other interrupt none, and a run counts its own words only.

use crate::assemble::{alu, dst, jp, jump_on, ldi, op, rt, rt_on, Op, CALL, JUMP};
use crate::machine::{empty, here, recognisable_on, Machine, ACCEPTED, C25, CHIPS, DONE, HERE, P20};
use emulator::{Chip, Reply};

const EI: u16 = 0x0080;
const TOO_WIDE: u32 = 1 << 23;

/// The reply to an interrupt on a full stack.
const REFUSED: Reply = Reply { number: 9, ..DONE };

fn at(sr: u16, depth: u8) -> Machine {
    at_on(P20, sr, depth)
}

fn at_on(chip: Chip, sr: u16, depth: u8) -> Machine {
    let mut machine = recognisable_on(chip);
    machine.registers.sr = sr;
    machine.registers.depth = depth;
    machine
}

/// A machine that will accept an interrupt.
fn listening() -> Machine {
    at(EI, 2)
}

/// What an accepted interrupt does: the address to come back to is pushed, and EI is cleared.
fn taken(machine: &mut Machine, back: u16) {
    machine.registers.stack[usize::from(machine.registers.depth)] = back;
    machine.registers.depth += 1;
    machine.registers.pc = 0x100;
    machine.registers.sr &= !EI;
}

fn ran(words: u16) -> Reply {
    Reply { words, ..DONE }
}

/// The word that lets the next interrupt in.
fn listen() -> u32 {
    ldi(EI.into(), dst::SR)
}

/// A run refused with 4 after so many words.
fn stopped_after(words: u16) -> Reply {
    Reply { number: 4, words, value: 0 }
}

/// Every SR that fits, at every depth: no other bit counts, and a full stack makes no words.
#[test]
fn ei_and_the_depth_decide() {
    for sr in (0..=0xffff).filter(|sr| sr & 0x007c == 0) {
        for (chip, depth) in CHIPS.into_iter().flat_map(|chip| (0..5).map(move |depth| (chip, depth))) {
            let machine = at_on(chip, sr, depth);
            match (sr & EI, depth) {
                (0, _) => machine.event_replies(6, 0, DONE, |_| {}),
                (_, 4) => machine.event_replies(6, 0, REFUSED, |_| {}),
                _ => machine.event_replies(6, 0, ACCEPTED, |m| taken(m, here(chip))),
            }
        }
    }
}

/// The NOP put in doesn't step PC: the return address is the word that has not run yet, from wherever.
#[test]
fn pc_itself_is_pushed() {
    for (chip, words) in [(P20, 512), (C25, 2048)] {
        for (pc, sr) in (0..words).flat_map(|pc| [(pc, EI), (pc, 0x8000 | EI)]) {
            let mut machine = at_on(chip, sr, 2);
            machine.registers.pc = pc;
            machine.event_replies(6, 0, ACCEPTED, |m| taken(m, pc));
        }
    }
}

#[test]
fn there_and_back() {
    for (chip, last) in [(P20, 0x1ff), (C25, 0x7ff)] {
        let mut machine = at_on(chip, EI, 2);
        machine.program[0x100] = jump_on(chip, last);
        machine.program[last as usize] = rt_on(chip, Op::default());
        assert_eq!(machine.event(6, 0), ACCEPTED);
        assert_eq!(machine.event(0, 2), ran(2));
        assert_eq!((machine.registers.pc, machine.registers.depth), (here(chip), 2));
    }
}

/// The NOP and the jump come from no image: nothing there is looked at.
#[test]
fn an_interrupt_fetches_nothing() {
    let mut machine = listening();
    machine.program.fill(TOO_WIDE);
    machine.rom.fill(0xffff);
    machine.event_replies(6, 0, ACCEPTED, |m| taken(m, HERE));
}

#[test]
fn a_second_edge_is_ignored_until_the_program_listens_again() {
    let mut machine = listening();
    machine.program[0x100] = listen();
    assert_eq!(machine.event(6, 0), ACCEPTED);
    machine.clone().event_replies(6, 0, DONE, |_| {});
    assert_eq!(machine.event(0, 1), ran(1));
    machine.event_replies(6, 0, ACCEPTED, |m| taken(m, 0x101));
}

/// No word of a refused interrupt is done, EI stays, and the next edge after a return is accepted.
#[test]
fn a_refused_interrupt_is_accepted_once_there_is_room() {
    let mut machine = at(EI, 4);
    machine.program[usize::from(HERE)] = rt(Op::default());
    assert_eq!(machine.event(6, 0), REFUSED);
    assert_eq!(machine.event(0, 1), ran(1));
    machine.event_replies(6, 0, ACCEPTED, |m| taken(m, 0x0c4));
}

/// The words of an interrupt are neither taken from the run after it nor counted in its reply.
#[test]
fn a_run_after_an_interrupt_counts_its_own_words() {
    for count in [0, 1, 2, 3, 1000, 65535] {
        let mut machine = empty();
        machine.registers.sr = EI;
        machine.program.fill(op(Op { alu: alu::INC, ..Op::default() }));
        assert_eq!(machine.event(6, 0), ACCEPTED);
        assert_eq!(machine.event(0, count.into()), ran(count));
        assert_eq!((machine.registers.a, machine.registers.pc), (count, (0x100 + count % 512) % 512));
    }
}

#[test]
fn a_run_after_an_ignored_or_a_refused_interrupt_counts_its_own_words() {
    for (sr, depth, reply) in [(0, 2, DONE), (EI, 4, REFUSED)] {
        let mut machine = at(sr, depth);
        assert_eq!(machine.event(6, 0), reply);
        machine.event_replies(0, 3, ran(3), |m| m.registers.pc = 0x23);
    }
}

/// The words of the run before are not counted again.
#[test]
fn an_interrupt_after_a_run_makes_two() {
    for count in [0, 1, 5, 65535] {
        let mut machine = listening();
        assert_eq!(machine.event(0, count.into()), ran(count));
        machine.event_replies(6, 0, ACCEPTED, |m| taken(m, (0x20 + count % 512) % 512));
    }
}

#[test]
fn a_run_refused_part_way_after_an_interrupt_counts_the_words_before() {
    for done in 0..4 {
        let mut machine = listening();
        machine.program[usize::from(0x100 + done)] = TOO_WIDE;
        assert_eq!(machine.event(6, 0), ACCEPTED);
        machine.event_replies(0, 10, stopped_after(done), |m| m.registers.pc = 0x100 + done);
    }
}

/// The refused word is what the interrupt comes back to, and it is refused again.
#[test]
fn an_interrupt_after_a_run_refused_part_way() {
    let mut machine = listening();
    machine.program[0x23] = TOO_WIDE;
    machine.program[0x100] = rt(Op::default());
    assert_eq!(machine.event(0, 10), stopped_after(3));
    machine.clone().event_replies(6, 0, ACCEPTED, |m| taken(m, 0x23));
    assert_eq!(machine.event(6, 0), ACCEPTED);
    assert_eq!(machine.event(0, 10), stopped_after(1));
    assert_eq!((machine.registers.pc, machine.registers.depth), (0x23, 2));
}

/// The interrupt takes the last cell: the handler's call is refused, and its words before that count.
#[test]
fn a_call_refused_in_the_handler() {
    let mut machine = at(EI, 3);
    machine.program[0x101] = jp(CALL, 0, 0x180);
    assert_eq!(machine.event(6, 0), ACCEPTED);
    machine.event_replies(0, 10, Reply { number: 9, words: 1, value: 0 }, |m| m.registers.pc = 0x101);
}

/// The same two words in the program are fetched: two words of a run, and no interrupt.
#[test]
fn a_nop_and_a_jump_of_the_program_are_no_interrupt() {
    let mut machine = listening();
    machine.program[0x20] = 0;
    machine.program[0x21] = jp(JUMP, 0, 0x100);
    machine.event_replies(0, 2, ran(2), |m| m.registers.pc = 0x100);
}

/// Also for one that would accept an interrupt, and for one that has just accepted one.
#[test]
fn events_but_runs_and_interrupts_make_no_words() {
    for kind in [1, 2, 3, 4, 5, 7] {
        let mut machine = listening();
        machine.registers.sorq = true;
        let mut interrupted = machine.clone();
        assert_eq!(interrupted.event(6, 0), ACCEPTED);
        for mut machine in [machine, interrupted] {
            let reply = machine.event(kind, 0);
            assert_eq!((reply.number, reply.words), (0, 0), "event {kind}");
        }
    }
}

/// What a desk adds up: in each of 100 frames seven words of the loop, two for the edge, two of the handler, none for an ignored edge.
#[test]
fn the_words_of_a_hundred_frames() {
    let mut machine = empty();
    machine.registers.sr = EI;
    machine.program[0] = op(Op { alu: alu::INC, ..Op::default() });
    machine.program[1] = jp(JUMP, 0, 0);
    machine.program[0x100] = listen();
    machine.program[0x101] = rt(Op::default());
    let mut words = 0;
    for _ in 0..100 {
        for (kind, value) in [(0, 7), (6, 0), (6, 0), (0, 2)] {
            let reply = machine.event(kind, value);
            assert_eq!(reply.number, 0);
            words += reply.words;
        }
    }
    assert_eq!(words, 1100);
    // Of the 700 words of the loop every other one counts up.
    assert_eq!((machine.registers.a, machine.registers.pc, machine.registers.depth), (350, 0, 0));
}
