//! Each source, seen through TR, and what else it changes.

use crate::assemble::{dst, mov, mov_on, rt_on, src, Op};
use crate::machine::{next, recognisable, recognisable_on, Machine, CHIPS, NEXT, P20};
use emulator::Chip;

/// Moves a source to TR; only TR, PC and what `change` says may differ afterwards.
#[track_caller]
fn gives_and(chip: Chip, source: u32, value: u16, change: impl FnOnce(&mut Machine)) {
    recognisable_on(chip).word_changes(mov_on(chip, dst::TR, source), |m| {
        m.registers.pc = next(chip);
        m.registers.tr = value;
        change(m);
    });
}

#[track_caller]
pub fn gives(chip: Chip, source: u32, value: u16) {
    gives_and(chip, source, value, |_| {});
}

#[test]
fn none() {
    recognisable().word_changes(mov(dst::NONE, src::NONE), |m| m.registers.pc = NEXT);
    recognisable().word_changes(mov(dst::ALSO_NONE, src::NONE), |m| m.registers.pc = NEXT);
}

#[test]
fn registers_of_16_bits() {
    for chip in CHIPS {
        gives(chip, src::A, 0x1234);
        gives(chip, src::B, 0x5678);
        gives(chip, src::TR, 0x7a7a);
        gives(chip, src::K, 0x0301);
        gives(chip, src::L, 0x0500);
    }
}

#[test]
fn pointers_fill_with_zeros() {
    gives(P20, src::DP, 0x0025);
    gives(P20, src::RP, 0x01a7);
}

/// 11A7H times 8.
#[test]
fn ro_is_the_cell_times_8() {
    gives(P20, src::RO, 0x8d38);
}

#[test]
fn ro_of_the_highest_cell() {
    let mut machine = recognisable();
    machine.rom[0x1a7] = 8191;
    machine.word_changes(mov(dst::TR, src::RO), |m| {
        m.registers.pc = NEXT;
        m.registers.tr = 0xfff8;
    });
}

/// A's S1 decides; S0 and B's S1 are set against it.
#[test]
fn sgn_follows_s1_of_a() {
    for chip in CHIPS {
        gives(chip, src::SGN, 0x7fff);
        let mut machine = recognisable_on(chip);
        machine.registers.flags_a.s1 = false;
        machine.registers.flags_a.s0 = true;
        machine.registers.flags_b.s1 = true;
        machine.word_changes(mov_on(chip, dst::TR, src::SGN), |m| {
            m.registers.pc = next(chip);
            m.registers.tr = 0x8000;
        });
    }
}

#[test]
fn dr_sets_rqm_and_drnf_does_not() {
    for chip in CHIPS {
        gives_and(chip, src::DR, 0xd00d, |m| m.registers.sr = 0x8000);
        gives(chip, src::DRNF, 0xd00d);
    }
}

#[test]
fn dr_sets_rqm_without_a_destination() {
    for chip in CHIPS {
        recognisable_on(chip).word_changes(mov_on(chip, dst::NONE, src::DR), |m| {
            m.registers.pc = next(chip);
            m.registers.sr = 0x8000;
        });
    }
}

#[test]
fn sr_as_it_is() {
    for chip in CHIPS {
        let mut machine = recognisable_on(chip);
        machine.registers.sr = 0xff83;
        machine.word_changes(mov_on(chip, dst::TR, src::SR), |m| {
            m.registers.pc = next(chip);
            m.registers.tr = 0xff83;
        });
    }
}

/// 8003H reversed is C001H.
#[test]
fn sim_and_sil_clear_siack() {
    for chip in CHIPS {
        gives_and(chip, src::SIM, 0x8003, |m| m.registers.siack = false);
        gives_and(chip, src::SIL, 0xc001, |m| m.registers.siack = false);
        recognisable_on(chip).word_changes(mov_on(chip, dst::NONE, src::SIM), |m| {
            m.registers.pc = next(chip);
            m.registers.siack = false;
        });
    }
}

#[test]
fn sil_reverses_all_16_bits() {
    for chip in CHIPS {
        for bit in 0..16 {
            let mut machine = recognisable_on(chip);
            machine.registers.si = 1 << bit;
            machine.run_word(mov_on(chip, dst::TR, src::SIL));
            assert_eq!(machine.registers.tr, 0x8000 >> bit);
        }
    }
}

#[test]
fn mem_is_ram_at_dp() {
    gives(P20, src::MEM, 0x4025);
}

#[test]
fn rt_reads_its_source_too() {
    for chip in CHIPS {
        recognisable_on(chip).word_changes(rt_on(chip, Op { src: src::DR, dst: dst::TR, ..Op::default() }), |m| {
            m.registers.tr = 0xd00d;
            m.registers.sr = 0x8000;
            m.registers.depth = 1;
            m.registers.pc = 0x0a2;
        });
    }
}
