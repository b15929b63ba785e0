//! Refusals 1, 2, 3, 9 and 10, which concern a call as a whole.

use crate::machine::{recognisable_on, Machine, C25, CHIPS, DONE, P20};
use emulator::{Chip, Registers, Reply};

fn with(chip: Chip, change: impl FnOnce(&mut Registers)) -> Machine {
    let mut machine = recognisable_on(chip);
    change(&mut machine.registers);
    machine
}

/// A serial word would go out, an interrupt would be taken.
fn ready(registers: &mut Registers) {
    registers.sorq = true;
    registers.sr = 0x0080;
}

/// Program words, data ROM cells and RAM cells.
type Lengths = (usize, usize, usize);

fn with_lengths(chip: Chip, (words, cells, ram_cells): Lengths) -> Machine {
    Machine { program: vec![0; words], rom: vec![0; cells], ram: vec![7; ram_cells], ..with(chip, ready) }
}

/// Each length wrong by itself in four ways, then all three.
#[test]
fn refusal_1_a_wrong_length() {
    let small: Lengths = (512, 512, 128);
    let large: Lengths = (2048, 1024, 256);
    let wrong = [
        (P20, small, large, [511, 513, 2048, 0], [511, 513, 1024, 0], [127, 129, 256, 0]),
        (C25, large, small, [2047, 2049, 512, 0], [1023, 1025, 512, 0], [255, 257, 128, 0]),
    ];
    for (chip, right, of_the_other, wrong_words, wrong_cells, wrong_ram) in wrong {
        let mut lengths = vec![of_the_other, (0, 0, 0)];
        lengths.extend(wrong_words.map(|words| (words, right.1, right.2)));
        lengths.extend(wrong_cells.map(|cells| (right.0, cells, right.2)));
        lengths.extend(wrong_ram.map(|ram_cells| (right.0, right.1, ram_cells)));
        for kind in 0..8 {
            for lengths in &lengths {
                with_lengths(chip, *lengths).event_is_refused(kind, 0, 1);
            }
        }
        with_lengths(chip, right).event_changes(3, 0, 0, |_| {});
    }
}

#[test]
fn refusal_2_a_register_that_does_not_fit() {
    for (chip, words, cells, ram_cells) in [(P20, 512, 512, 128), (C25, 2048, 1024, 256)] {
        let damages: [&dyn Fn(&mut Registers); 18] = [
            &|r| r.pc = words,
            &|r| r.pc = 65535,
            &|r| r.stack[0] = words,
            &|r| r.stack[1] = words,
            &|r| r.stack[2] = words,
            &|r| r.stack[3] = 65535,
            &|r| r.dp = ram_cells,
            &|r| r.dp = 65535,
            &|r| r.rp = cells,
            &|r| r.rp = 65535,
            &|r| r.depth = 5,
            &|r| r.depth = 255,
            &|r| r.sr = 0x0004,
            &|r| r.sr = 0x0008,
            &|r| r.sr = 0x0010,
            &|r| r.sr = 0x0020,
            &|r| r.sr = 0x0040,
            &|r| r.sr = 0xffff,
        ];
        for kind in 0..8 {
            for damage in damages {
                let mut machine = with(chip, ready);
                damage(&mut machine.registers);
                machine.event_is_refused(kind, 0, 2);
            }
        }
    }
}

#[test]
fn the_widest_registers_pass() {
    for (chip, pc, rp, dp) in [(P20, 511, 511, 127), (C25, 2047, 1023, 255)] {
        let machine = with(chip, |r| {
            r.pc = pc;
            r.stack = [pc; 4];
            r.depth = 4;
            r.dp = dp;
            r.rp = rp;
            r.trb = 65535;
            r.sr = 0xff83;
        });
        machine.event_changes(3, 0, 0xff, |_| {});
    }
}

#[test]
fn refusal_3_no_such_kind() {
    for kind in [8, 9, 255, 256, 65536, u32::MAX] {
        for chip in CHIPS {
            recognisable_on(chip).event_is_refused(kind, 0, 3);
        }
    }
}

#[test]
fn refusal_3_a_value_not_allowed() {
    for chip in CHIPS {
        for value in [65536, u32::MAX] {
            for kind in 0..8 {
                with(chip, ready).event_is_refused(kind, value, 3);
            }
        }
        for value in [256, 65535] {
            recognisable_on(chip).event_is_refused(2, value, 3);
        }
        for kind in [1, 3, 5, 6, 7] {
            for value in [1, 255, 65535] {
                with(chip, ready).event_is_refused(kind, value, 3);
            }
        }
    }
}

#[test]
fn refusal_9_an_interrupt_at_depth_4() {
    for chip in CHIPS {
        with(chip, |r| (r.depth, r.sr) = (4, 0x0080)).event_is_refused(6, 0, 9);
    }
}

#[test]
fn refusal_10_nothing_to_send() {
    for chip in CHIPS {
        with(chip, |r| r.sorq = false).event_is_refused(5, 0, 10);

        // After one word out there is no second.
        let mut machine = with(chip, |r| r.sorq = true);
        assert_eq!(machine.event(5, 0), Reply { value: 0x50f0, ..DONE });
        machine.event_is_refused(5, 0, 10);
    }
}
