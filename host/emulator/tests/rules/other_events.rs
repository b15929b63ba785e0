//! Events 4, 5 and 7: the serial words and reset.

use crate::machine::{recognisable_on, CHIPS};
use emulator::Flags;

#[test]
fn a_serial_word_comes_in() {
    for chip in CHIPS {
        for (siack, word) in [(false, 0xbeef), (true, 0xbeef), (true, 0), (true, 65535)] {
            let mut machine = recognisable_on(chip);
            machine.registers.siack = siack;
            machine.event_changes(4, word, 0, |m| {
                m.registers.si = word as u16;
                m.registers.siack = true;
            });
        }
    }
}

#[test]
fn a_serial_word_goes_out() {
    for chip in CHIPS {
        for soack in [false, true] {
            let mut machine = recognisable_on(chip);
            machine.registers.sorq = true;
            machine.registers.soack = soack;
            machine.event_changes(5, 0, 0x50f0, |m| {
                m.registers.sorq = false;
                m.registers.soack = true;
            });
        }
    }
}

/// Everything not listed under event 7 stays, TRB and the stack cells too.
#[test]
fn reset() {
    for chip in CHIPS {
        let mut machine = recognisable_on(chip);
        machine.registers.sr = 0xff83;
        machine.registers.sorq = true;
        machine.event_changes(7, 0, 0, |m| {
            m.registers.pc = 0;
            m.registers.depth = 0;
            m.registers.flags_a = Flags::default();
            m.registers.flags_b = Flags::default();
            m.registers.sr = 0;
            m.registers.sorq = false;
            m.registers.siack = false;
            m.registers.soack = false;
        });
    }
}
