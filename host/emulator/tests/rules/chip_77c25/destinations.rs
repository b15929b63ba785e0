//! The destinations that are wider here or not there on the smaller chip.

use super::assemble::{ldi, DST_TRB};
use super::machine::{recognisable, C25, NEXT};
use crate::assemble::dst;
use crate::destinations::receives;

#[test]
fn temporary_register_b() {
    receives(C25, DST_TRB, |m| m.registers.trb = 0xa5c3);
}

/// Eight bits of A5C3H, and ten: 01 1100 0011.
#[test]
fn pointers_keep_the_low_bits() {
    receives(C25, dst::DP, |m| m.registers.dp = 0xc3);
    receives(C25, dst::RP, |m| m.registers.rp = 0x1c3);
    recognisable().word_changes(ldi(0xffff, dst::DP), |m| (m.registers.pc, m.registers.dp) = (NEXT, 0xff));
    recognisable().word_changes(ldi(0xffff, dst::RP), |m| (m.registers.pc, m.registers.rp) = (NEXT, 0x3ff));
}

/// Cell 3A7H holds C3A7H, and nothing is shifted.
#[test]
fn klr_takes_l_from_data_rom() {
    receives(C25, dst::KLR, |m| (m.registers.k, m.registers.l) = (0xa5c3, 0xc3a7));
}

/// DP 85H with bit 6 set is C5H: bit 7 stays.
#[test]
fn klm_takes_k_from_ram_with_bit_6_set() {
    receives(C25, dst::KLM, |m| (m.registers.k, m.registers.l) = (0x40c5, 0xa5c3));
}

#[test]
fn klm_in_every_row() {
    let lower = [(0x05, 0x45), (0x1f, 0x5f), (0x3f, 0x7f), (0x45, 0x45), (0x7e, 0x7e)];
    let upper = [(0x80, 0xc0), (0x85, 0xc5), (0xbf, 0xff), (0xc5, 0xc5), (0xff, 0xff)];
    for (dp, address) in lower.into_iter().chain(upper) {
        let mut machine = recognisable();
        machine.registers.dp = dp;
        machine.word_changes(ldi(0x1111, dst::KLM), |m| {
            m.registers.pc = NEXT;
            m.registers.k = 0x4000 + address;
            m.registers.l = 0x1111;
        });
    }
}

#[test]
fn mem_is_ram_at_dp() {
    receives(C25, dst::MEM, |m| m.ram[0x85] = 0xa5c3);
}
