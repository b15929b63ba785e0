//! Events 1, 2 and 3: the host's accesses.

use crate::fitting_registers::fitting_registers;
use crate::machine::{recognisable, recognisable_on, Machine, CHIPS};
use emulator::Chip;
use random::Random;

fn with_sr(chip: Chip, sr: u16) -> Machine {
    let mut machine = recognisable_on(chip);
    machine.registers.sr = sr;
    machine
}

/// DRC 0: the low byte sets DRS, the high byte clears DRS and RQM.
#[test]
fn reads_of_a_whole_word() {
    for chip in CHIPS {
        with_sr(chip, 0xeb83).event_changes(1, 0, 0x0d, |m| m.registers.sr = 0xfb83);
        with_sr(chip, 0xfb83).event_changes(1, 0, 0xd0, |m| m.registers.sr = 0x6b83);
        with_sr(chip, 0x0000).event_changes(1, 0, 0x0d, |m| m.registers.sr = 0x1000);
        with_sr(chip, 0x1000).event_changes(1, 0, 0xd0, |m| m.registers.sr = 0x0000);
    }
}

/// DRC 1: the low byte only and RQM cleared, DRS as it was.
#[test]
fn reads_of_a_byte() {
    for chip in CHIPS {
        with_sr(chip, 0xef83).event_changes(1, 0, 0x0d, |m| m.registers.sr = 0x6f83);
        with_sr(chip, 0xff83).event_changes(1, 0, 0x0d, |m| m.registers.sr = 0x7f83);
        with_sr(chip, 0x9c00).event_changes(1, 0, 0x0d, |m| m.registers.sr = 0x1c00);
        with_sr(chip, 0x0400).event_changes(1, 0, 0x0d, |_| {});
    }
}

/// SR before, the byte, and DR and SR afterwards.
#[track_caller]
fn a_write_leaves(sr: u16, byte: u32, dr: u16, sr_after: u16) {
    for chip in CHIPS {
        with_sr(chip, sr).event_changes(2, byte, 0, |m| (m.registers.dr, m.registers.sr) = (dr, sr_after));
    }
}

#[test]
fn writes_of_a_whole_word() {
    a_write_leaves(0x8000, 0xab, 0xd0ab, 0x9000);
    a_write_leaves(0x9000, 0xab, 0xab0d, 0x0000);
    a_write_leaves(0x0000, 0x00, 0xd000, 0x1000);
}

#[test]
fn writes_of_a_byte() {
    a_write_leaves(0x8400, 0xff, 0xd0ff, 0x0400);
    a_write_leaves(0x9400, 0xff, 0xd0ff, 0x1400);
    a_write_leaves(0x9c00, 0x77, 0xd077, 0x1c00);
}

/// A word read in two bytes, then, when the program asks for it, one written.
#[test]
fn a_word_in_two_bytes() {
    for chip in CHIPS {
        let mut machine = with_sr(chip, 0x8000);
        assert_eq!(machine.event(3, 0).value, 0x80);
        assert_eq!(machine.event(1, 0).value, 0x0d);
        assert_eq!(machine.registers.sr, 0x9000);
        assert_eq!(machine.event(1, 0).value, 0xd0);
        assert_eq!(machine.registers.sr, 0x0000);

        machine.registers.sr = 0x8000;
        machine.event(2, 0x34);
        machine.event(2, 0x12);
        assert_eq!((machine.registers.dr, machine.registers.sr), (0x1234, 0x0000));
    }
}

#[test]
fn status_is_the_high_byte_of_sr() {
    for chip in CHIPS {
        with_sr(chip, 0xa583).event_changes(3, 0, 0xa5, |_| {});
        with_sr(chip, 0x0083).event_changes(3, 0, 0x00, |_| {});
    }
}

/// The DMA bit, SOC and SIC are stored and not acted on.
#[test]
fn other_bits_of_sr_do_not_matter() {
    for chip in CHIPS {
        for sr in [0x6000, 0x0800, 0x0300, 0x0083] {
            with_sr(chip, sr | 0x8000).event_changes(1, 0, 0x0d, |m| m.registers.sr = sr | 0x9000);
            with_sr(chip, sr | 0x9000).event_changes(1, 0, 0xd0, |m| m.registers.sr = sr);
        }
    }
}

/// Two machines that agree on DR and SR.
#[test]
fn dr_and_sr_alone_decide_the_byte() {
    let mut random = Random::new(9);
    for _ in 0..2000 {
        let (mut one, mut two) = (recognisable(), recognisable());
        one.registers = fitting_registers(&mut random);
        two.registers = fitting_registers(&mut random);
        (two.registers.dr, two.registers.sr) = (one.registers.dr, one.registers.sr);
        let expected = match one.registers.sr & 0x1400 {
            0x1000 => one.registers.dr >> 8,
            _ => one.registers.dr & 0xff,
        };
        assert_eq!(one.event(1, 0).value, expected);
        assert_eq!(two.event(1, 0).value, expected);
        assert_eq!((two.registers.dr, two.registers.sr), (one.registers.dr, one.registers.sr));
    }
}
