//! Each of the 512 jump codes: 36 are listed, and 476 refused.

use super::assemble::{jp, CALL, JDPL0, JDPLF, JDPLN0, JDPLNF, JMP};
use super::machine::{recognisable, C25, NEXT};
use crate::conditions::all;
use crate::machine::{Machine, DONE};
use emulator::jump_codes::LISTED;
use emulator::{Registers, Reply};

const TARGET: u16 = 0x5ce;

/// The data book's list in its order. A code's nine bits D21 to D13 are written as three hex digits.
const CODES: [(u32, &str); 36] = [
    (0x100, "JMP"),
    (0x140, "CALL"),
    (0x080, "JNCA"),
    (0x082, "JCA"),
    (0x084, "JNCB"),
    (0x086, "JCB"),
    (0x088, "JNZA"),
    (0x08a, "JZA"),
    (0x08c, "JNZB"),
    (0x08e, "JZB"),
    (0x090, "JNOVA0"),
    (0x092, "JOVA0"),
    (0x094, "JNOVB0"),
    (0x096, "JOVB0"),
    (0x098, "JNOVA1"),
    (0x09a, "JOVA1"),
    (0x09c, "JNOVB1"),
    (0x09e, "JOVB1"),
    (0x0a0, "JNSA0"),
    (0x0a2, "JSA0"),
    (0x0a4, "JNSB0"),
    (0x0a6, "JSB0"),
    (0x0a8, "JNSA1"),
    (0x0aa, "JSA1"),
    (0x0ac, "JNSB1"),
    (0x0ae, "JSB1"),
    (0x0b0, "JDPL0"),
    (0x0b1, "JDPLN0"),
    (0x0b2, "JDPLF"),
    (0x0b3, "JDPLNF"),
    (0x0b4, "JNSIAK"),
    (0x0b6, "JSIAK"),
    (0x0b8, "JNSOAK"),
    (0x0ba, "JSOAK"),
    (0x0bc, "JNRQM"),
    (0x0be, "JRQM"),
];

/// The code that wants 0, the one that wants 1, and what they ask about.
type Pair = (u32, u32, fn(&mut Registers, bool));

const PAIRS: [Pair; 15] = [
    (0x080, 0x082, |r, value| r.flags_a.c = value),
    (0x084, 0x086, |r, value| r.flags_b.c = value),
    (0x088, 0x08a, |r, value| r.flags_a.z = value),
    (0x08c, 0x08e, |r, value| r.flags_b.z = value),
    (0x090, 0x092, |r, value| r.flags_a.ov0 = value),
    (0x094, 0x096, |r, value| r.flags_b.ov0 = value),
    (0x098, 0x09a, |r, value| r.flags_a.ov1 = value),
    (0x09c, 0x09e, |r, value| r.flags_b.ov1 = value),
    (0x0a0, 0x0a2, |r, value| r.flags_a.s0 = value),
    (0x0a4, 0x0a6, |r, value| r.flags_b.s0 = value),
    (0x0a8, 0x0aa, |r, value| r.flags_a.s1 = value),
    (0x0ac, 0x0ae, |r, value| r.flags_b.s1 = value),
    (0x0b4, 0x0b6, |r, value| r.siack = value),
    (0x0b8, 0x0ba, |r, value| r.soack = value),
    (0x0bc, 0x0be, |r, value| r.sr = if value { r.sr | 0x8000 } else { r.sr & 0x7fff }),
];

#[track_caller]
fn jumps(machine: Machine, code: u32, taken: bool) {
    machine.word_changes(jp(code, TARGET.into()), |m| m.registers.pc = if taken { TARGET } else { NEXT });
}

#[test]
fn the_list_is_the_data_books() {
    let listed: Vec<(u32, &str)> = LISTED.iter().map(|listed| (listed.code.into(), listed.mnemonic)).collect();
    assert_eq!(listed, CODES);
}

#[test]
fn a_code_runs_if_it_is_listed_and_is_refused_with_5_if_not() {
    let (mut ran, mut refused) = (0, 0);
    for code in 0..512 {
        if CODES.iter().any(|&(listed, _)| listed == code) {
            ran += 1;
            assert_eq!(recognisable().run_word(jp(code, TARGET.into())), Reply { words: 1, ..DONE }, "{code:03X}H");
        } else {
            refused += 1;
            recognisable().word_is_refused(jp(code, TARGET.into()), 5);
        }
    }
    assert_eq!((ran, refused), (36, 476));
}

/// A jump's or call's low six bits are part of its code: what the smaller chip refuses with 18 has no such code here.
#[test]
fn a_jump_and_a_call_have_one_code_each() {
    for low in 1..64 {
        recognisable().word_is_refused(jp(JMP + low, 0x55), 5);
        recognisable().word_is_refused(jp(CALL + low, 0x55), 5);
    }
}

/// D13 is 1 in two listed codes only.
#[test]
fn an_odd_code_is_listed_for_low_dp_only() {
    let odd: Vec<u32> = (0..512).filter(|code| code % 2 == 1 && recognisable().run_word(jp(*code, 0)).number == 0).collect();
    assert_eq!(odd, [0x0b1, 0x0b3]);
}

#[test]
fn pairs_ask_for_0_then_for_1() {
    for (for_0, for_1, set) in PAIRS {
        for value in [false, true] {
            let mut machine = all(C25, !value);
            set(&mut machine.registers, value);
            jumps(machine.clone(), for_0, !value);
            jumps(machine, for_1, value);
        }
    }
}

/// Two unconditional codes, four on low DP and fifteen pairs make 36.
#[test]
fn all_listed_codes_are_tried_here() {
    let mut tried: Vec<u32> = PAIRS.iter().flat_map(|&(for_0, for_1, _)| [for_0, for_1]).collect();
    tried.extend([JMP, CALL, JDPL0, JDPLN0, JDPLF, JDPLNF]);
    tried.sort();
    let mut listed = CODES.map(|(code, _)| code);
    listed.sort();
    assert_eq!(tried, listed);
}

#[test]
fn low_dp_is_or_is_not_0_or_15() {
    let ends_in_0 = [0x00, 0x10, 0x20, 0x30, 0x40, 0x50, 0x60, 0x70, 0x80, 0x90, 0xa0, 0xb0, 0xc0, 0xd0, 0xe0, 0xf0];
    let ends_in_15 = [0x0f, 0x1f, 0x2f, 0x3f, 0x4f, 0x5f, 0x6f, 0x7f, 0x8f, 0x9f, 0xaf, 0xbf, 0xcf, 0xdf, 0xef, 0xff];
    for dp in 0..256 {
        let mut machine = recognisable();
        machine.registers.dp = dp;
        jumps(machine.clone(), JDPL0, ends_in_0.contains(&dp));
        jumps(machine.clone(), JDPLN0, !ends_in_0.contains(&dp));
        jumps(machine.clone(), JDPLF, ends_in_15.contains(&dp));
        jumps(machine, JDPLNF, !ends_in_15.contains(&dp));
    }
}
