//! Words as the manuals print them, and what their mnemonics cannot spell.

use super::line;
use crate::chip::device::Device;
use emulator::jump_codes::LISTED;
use std::hash::{DefaultHasher, Hash, Hasher};

fn small(word: u32) -> String {
    line(Device::Upd77p20, word)
}

fn large(word: u32) -> String {
    line(Device::Upd77c25, word)
}

#[test]
fn the_manuals_words_print_as_the_manual_has_them() {
    let printed = [
        // The one-word examples of 4.1, 4.2 and 4.3.
        (0x3293fb, "MOV @KLR,MEM ADD ACCA,M DPINC M1 RPDEC RET"),
        (0x4a2020, "JSA0 002H"),
        (0x624681, "LDI @A,1234H"),
        // Example A.
        (0x09811b, "MOV @KLR,A XOR ACCA,IDB RPDEC"),
        (0x1281fb, "MOV @KLR,MEM ADD ACCA,M RPDEC"),
        (0x1282d2, "MOV @B,K ADD ACCA,M M1"),
        (0x12816d, "MOV @L,RO ADD ACCA,M RPDEC"),
        (0x498070, "JNOVA1 007H"),
        (0x000071, "MOV @A,SGN"),
        (0x128213, "MOV @TR,A ADD ACCA,M M1"),
        (0x0001fb, "MOV @KLR,MEM RPDEC"),
        (0x12823f, "MOV @MEM,TR ADD ACCA,M M1"),
        (0x32822f, "MOV @MEM,B ADD ACCA,M M1 RET"),
        // Example B.
        (0x600007, "LDI @SR,0000H"),
        (0x600001, "LDI @A,0000H"),
        (0x600fe2, "LDI @B,007FH"),
        (0x000024, "MOV @DP,B"),
        (0x04401f, "MOV @MEM,A DEC ACCB"),
        (0x484030, "JNCB 003H"),
        (0x4b4060, "JNSIAK 006H"),
        (0x600004, "LDI @DP,0000H"),
        (0x603fe5, "LDI @RP,01FFH"),
        (0x0000b1, "MOV @A,SIM"),
        (0x540170, "CALL 017H"),
        (0x000400, "M2"),
        (0x000c00, "M6"),
        (0x001c00, "DPINC M6"),
        (0x4b0140, "JDPL0 014H"),
        (0x5000a0, "JMP 00AH"),
        (0x4ba140, "JSOAK 014H"),
        (0x000019, "MOV @SOM,A"),
        // Example C, and its variant with the coefficients in RAM.
        (0x0000fb, "MOV @KLR,MEM"),
        (0x12802f, "MOV @MEM,B ADD ACCA,M"),
        (0x0011d2, "MOV @B,K DPINC RPDEC"),
        (0x200200, "M1 RET"),
        (0x0000fc, "MOV @KLM,MEM"),
        (0x0010e2, "MOV @B,L DPINC"),
        // Example D.
        (0x09c020, "MOV @NON,B XOR ACCB,IDB"),
        (0x12c000, "ADD ACCB,M"),
        (0x00002f, "MOV @MEM,B"),
        // Example E.
        (0x6000a2, "LDI @B,0005H"),
        (0x600006, "LDI @DR,0000H"),
        (0x4be040, "JRQM 004H"),
        (0x04508f, "MOV @MEM,DR DEC ACCB DPINC"),
        (0x48c040, "JNZB 004H"),
        (0x00309f, "MOV @MEM,DRNF DPCLR"),
        (0x640027, "LDI @SR,2001H"),
        (0x0010f6, "MOV @DR,MEM DPINC"),
        (0x680047, "LDI @SR,4002H"),
        // Example F.
        (0x0910f2, "MOV @B,MEM AND ACCA,IDB DPINC"),
        (0x064000, "SHL1 ACCB"),
        (0x060000, "SHL1 ACCA"),
        (0x02d000, "ADD ACCB,RAM DPINC"),
        (0x039000, "ADC ACCA,RAM DPINC"),
        (0x025000, "SUB ACCB,RAM DPINC"),
        (0x031000, "SBB ACCA,RAM DPINC"),
        (0x20201f, "MOV @MEM,A DPDEC RET"),
    ];
    for (word, expected) in printed {
        assert_eq!(small(word), expected, "{word:06X}H");
    }
}

#[test]
fn a_word_that_asks_for_nothing_is_nop_or_ret() {
    assert_eq!(small(0x000000), "NOP");
    assert_eq!(small(0x200000), "RET");
    assert_eq!(small(0x000001), "MOV @A,NON");
    assert_eq!(small(0x000010), "MOV @NON,A");
}

#[test]
fn conditions_run_in_the_pairs_of_the_rules() {
    let tested = ["CA", "CB", "ZA", "ZB", "OVA0", "OVB0", "OVA1", "OVB1", "SA0", "SB0", "SA1", "SB1"];
    let marks = ["SIAK", "SOAK", "RQM"];
    let pairs = |names: &[&str]| -> Vec<String> { names.iter().flat_map(|name| [format!("JN{name}"), format!("J{name}")]).collect() };
    let mut expected = pairs(&tested);
    expected.extend(["JDPL0".to_string(), "JDPLF".to_string()]);
    expected.extend(pairs(&marks));
    for (condition, mnemonic) in (0u32..).zip(expected) {
        assert_eq!(small(0x481230 + 0x2000 * condition), format!("{mnemonic} 123H"));
    }
    assert_eq!(small(0x4bf230), "JRQM 123H");
}

#[test]
fn what_cannot_be_spelled_stands_in_brackets() {
    let remarked = [
        (0x00000e, "NOP [DST 14]"),
        (0x20000e, "RET [DST 14]"),
        (0x00001e, "MOV @NON,A [DST 14]"),
        (0x080000, "NOP [P-select IDB]"),
        (0x104010, "MOV @NON,A [P-select M] [ASL ACCB]"),
        (0x004000, "NOP [ASL ACCB]"),
        (0x1dc10e, "SHR1 ACCB RPDEC [DST 14] [P-select N]"),
        (0x501005, "JMP 100H [spare 5]"),
        (0x51f00f, "JMP 100H [CND 15] [spare 15]"),
        (0x546000, "CALL 000H [CND 3]"),
        (0x4bf00f, "JRQM 100H [spare 15]"),
        (0x4c3230, "JP 123H [no such branch 011] [CND 1]"),
        (0x400000, "JP 000H [no such branch 000]"),
        (0x624691, "LDI @A,1234H [spare 1]"),
        (0x7fffee, "LDI @NON,FFFFH [DST 14]"),
        (0x800000, "[wider than 23 bits: 800000H]"),
        (u32::MAX, "[wider than 23 bits: FFFFFFFFH]"),
    ];
    for (word, expected) in remarked {
        assert_eq!(small(word), expected, "{word:06X}H");
    }
}

#[test]
fn the_77c25_spells_its_own_fields() {
    let printed = [
        (0x000000, "NOP"),
        (0x400000, "RET"),
        // TRB from the bus, to the bus, and as an operand that goes nowhere else.
        (0x000001, "MOV @A,TRB"),
        (0x00001e, "MOV @TRB,A"),
        (0x00000e, "MOV @TRB,TRB"),
        (0x000010, "MOV @NON,A"),
        (0x150000, "MOV @NON,TRB ADD ACCA,IDB"),
        (0x150010, "MOV @NON,A ADD ACCA,IDB"),
        (0xc48d01, "LDI @A,1234H"),
        (0xc48d0e, "LDI @TRB,1234H"),
        (0x250000, "ADD ACCA,M"),
        // DPH-M has four bits.
        (0x002200, "DPINC M1"),
        (0x003000, "DPINC M8"),
        (0x001e00, "MF"),
        (0x000100, "RPDEC"),
        (0x0000fc, "MOV @KLM,MEM"),
        (0x0000fb, "MOV @KLR,MEM"),
        (0x6523fb, "MOV @KLR,MEM ADD ACCA,M DPINC M1 RPDEC RET"),
        (0xa00400, "JMP 100H"),
        (0xa80400, "CALL 100H"),
        (0xa01ffc, "JMP 7FFH"),
        (0x960400, "JDPL0 100H"),
        (0x962400, "JDPLN0 100H"),
        (0x964400, "JDPLF 100H"),
        (0x966400, "JDPLNF 100H"),
        (0x97c000, "JRQM 000H"),
    ];
    for (word, expected) in printed {
        assert_eq!(large(word), expected, "{word:06X}H");
    }
}

#[test]
fn every_jump_of_the_77c25_goes_by_its_name() {
    for listed in LISTED {
        assert_eq!(large(0x800000 | u32::from(listed.code) << 13 | 0x123 << 2), format!("{} 123H", listed.mnemonic));
    }
}

#[test]
fn what_the_77c25_cannot_spell_stands_in_brackets() {
    let remarked = [
        (0x100000, "NOP [P-select IDB]"),
        (0x20801e, "MOV @TRB,A [P-select M] [ASL ACCB]"),
        (0x800000, "JP 000H [no such jump code 000H]"),
        (0xa02400, "JP 100H [no such jump code 101H]"),
        (0x982403, "JP 100H [no such jump code 0C1H] [spare 3]"),
        (0xa00401, "JMP 100H [spare 1]"),
        (0xc48d31, "LDI @A,1234H [spare 3]"),
        (0x1000000, "[wider than 24 bits: 1000000H]"),
        (u32::MAX, "[wider than 24 bits: FFFFFFFFH]"),
    ];
    for (word, expected) in remarked {
        assert_eq!(large(word), expected, "{word:06X}H");
    }
}

/// Every word in a release build, but for the 77C25's words behind OP, of which there are every 7th; every 31st else.
#[test]
fn different_words_print_different_lines() {
    let few = cfg!(debug_assertions);
    let all: [(Device, Vec<u32>); 2] = [
        (Device::Upd77p20, (0..1 << 23).step_by(if few { 31 } else { 1 }).collect()),
        (
            Device::Upd77c25,
            (0..1 << 22).step_by(if few { 31 } else { 1 }).chain((1 << 22..1 << 24).step_by(if few { 31 } else { 7 })).collect(),
        ),
    ];
    for (device, words) in all {
        let hash = |word: u32| {
            let mut hasher = DefaultHasher::new();
            line(device, word).hash(&mut hasher);
            hasher.finish()
        };
        let mut hashes: Vec<u64> = words.into_iter().map(hash).collect();
        hashes.sort_unstable();
        let alike = hashes.windows(2).filter(|pair| pair[0] == pair[1]).count();
        assert_eq!(alike, 0, "{device}");
    }
}
