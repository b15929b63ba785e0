//! SR as a destination, bit by bit, and what becomes of RQM.

use crate::assemble::{dst, ldi, mov, src};
use crate::machine::{recognisable, NEXT};

/// All bits but 15, 12 and 6 to 2.
const LOADABLE: u16 = 0b0110_1111_1000_0011;

#[test]
fn ones_reach_the_loadable_bits_only() {
    recognisable().word_changes(ldi(0xffff, dst::SR), |m| {
        m.registers.pc = NEXT;
        m.registers.sr = LOADABLE;
    });
}

#[test]
fn zeros_leave_rqm_and_drs() {
    let mut machine = recognisable();
    machine.registers.sr = 0xff83;
    machine.word_changes(ldi(0, dst::SR), |m| {
        m.registers.pc = NEXT;
        m.registers.sr = 0x9000;
    });
}

/// DR is D00DH, of which the loadable bits are 4001H.
#[test]
fn rqm_is_1_if_dr_was_the_source() {
    for (before, after) in [(0x0000, 0xc001), (0x8000, 0xc001), (0x1000, 0xd001)] {
        let mut machine = recognisable();
        machine.registers.sr = before;
        machine.word_changes(mov(dst::SR, src::DR), |m| {
            m.registers.pc = NEXT;
            m.registers.sr = after;
        });
    }
}

#[test]
fn rqm_stays_if_drnf_was_the_source() {
    for (before, after) in [(0x0000, 0x4001), (0x8000, 0xc001)] {
        let mut machine = recognisable();
        machine.registers.sr = before;
        machine.word_changes(mov(dst::SR, src::DRNF), |m| {
            m.registers.pc = NEXT;
            m.registers.sr = after;
        });
    }
}

#[test]
fn dr_as_destination_sets_rqm_whatever_the_source() {
    // DR gets SR as it was before RQM was set.
    let mut machine = recognisable();
    machine.registers.sr = 0x0400;
    machine.word_changes(mov(dst::DR, src::SR), |m| {
        m.registers.pc = NEXT;
        m.registers.dr = 0x0400;
        m.registers.sr = 0x8400;
    });
    for source in [src::DR, src::DRNF] {
        recognisable().word_changes(mov(dst::DR, source), |m| {
            m.registers.pc = NEXT;
            m.registers.sr = 0x8000;
        });
    }
}
