//! Each destination, from TR by an OP word and from ID by LDI. Both send A5C3H.

use crate::assemble::{dst, ldi, ldi_on, mov_on, src};
use crate::machine::{next, recognisable, recognisable_on, Machine, CHIPS, NEXT, P20};
use emulator::Chip;

const SENT: u16 = 0xa5c3;

#[track_caller]
pub fn receives(chip: Chip, number: u32, change: impl Fn(&mut Machine)) {
    let step_and_change = |m: &mut Machine| {
        m.registers.pc = next(chip);
        change(m);
    };
    recognisable_on(chip).word_changes(ldi_on(chip, SENT.into(), number), step_and_change);

    let mut machine = recognisable_on(chip);
    machine.registers.tr = SENT;
    machine.word_changes(mov_on(chip, number, src::TR), step_and_change);
}

#[track_caller]
fn both_receive(number: u32, change: impl Fn(&mut Machine)) {
    for chip in CHIPS {
        receives(chip, number, &change);
    }
}

#[test]
fn none() {
    both_receive(dst::NONE, |_| {});
    receives(P20, dst::ALSO_NONE, |_| {});
}

#[test]
fn registers_of_16_bits() {
    both_receive(dst::A, |m| m.registers.a = 0xa5c3);
    both_receive(dst::B, |m| m.registers.b = 0xa5c3);
    both_receive(dst::TR, |m| m.registers.tr = 0xa5c3);
    both_receive(dst::K, |m| m.registers.k = 0xa5c3);
    both_receive(dst::L, |m| m.registers.l = 0xa5c3);
}

#[test]
fn pointers_keep_the_low_bits() {
    receives(P20, dst::DP, |m| m.registers.dp = 0x43);
    receives(P20, dst::RP, |m| m.registers.rp = 0x1c3);
}

#[test]
fn dr_sets_rqm() {
    both_receive(dst::DR, |m| {
        m.registers.dr = 0xa5c3;
        m.registers.sr = 0x8000;
    });
}

/// A5C3H without bits 15, 12 and 6 to 2 is 2583H.
#[test]
fn sr_keeps_rqm_drs_and_the_empty_bits() {
    both_receive(dst::SR, |m| m.registers.sr = 0x2583);
}

/// A5C3H reversed is C3A5H.
#[test]
fn som_and_sol_ask_for_sending() {
    both_receive(dst::SOM, |m| {
        m.registers.so = 0xa5c3;
        m.registers.sorq = true;
        m.registers.soack = false;
    });
    both_receive(dst::SOL, |m| {
        m.registers.so = 0xc3a5;
        m.registers.sorq = true;
        m.registers.soack = false;
    });
}

#[test]
fn sol_reverses_all_16_bits() {
    for chip in CHIPS {
        for bit in 0..16 {
            let mut machine = recognisable_on(chip);
            machine.run_word(ldi_on(chip, 1 << bit, dst::SOL));
            assert_eq!(machine.registers.so, 0x8000 >> bit);
        }
    }
}

/// Cell 1A7H holds 11A7H, times 8.
#[test]
fn klr_takes_l_from_data_rom() {
    receives(P20, dst::KLR, |m| {
        m.registers.k = 0xa5c3;
        m.registers.l = 0x8d38;
    });
}

/// DP 25H with bit 6 set is 65H.
#[test]
fn klm_takes_k_from_the_upper_half_of_ram() {
    receives(P20, dst::KLM, |m| {
        m.registers.k = 0x4065;
        m.registers.l = 0xa5c3;
    });
}

#[test]
fn klm_with_bit_6_already_set() {
    let mut machine = recognisable();
    machine.registers.dp = 0x7e;
    machine.word_changes(ldi(0x1111, dst::KLM), |m| {
        m.registers.pc = NEXT;
        m.registers.k = 0x407e;
        m.registers.l = 0x1111;
    });
}

#[test]
fn mem_is_ram_at_dp() {
    receives(P20, dst::MEM, |m| m.ram[0x25] = 0xa5c3);
}

#[test]
fn a_second_word_to_send_replaces_the_first() {
    for chip in CHIPS {
        let mut machine = recognisable_on(chip);
        machine.registers.sorq = true;
        machine.registers.soack = false;
        machine.word_changes(ldi_on(chip, 0x0102, dst::SOM), |m| {
            m.registers.pc = next(chip);
            m.registers.so = 0x0102;
        });
    }
}
