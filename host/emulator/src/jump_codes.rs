//! The jump codes of the 77C25, as the data book lists them (section 2, uPD77C25, table 14). Every other code is refused.
//! That table prints JSIAK as JSIK; the section's lists for the other chips have JSIAK.

use crate::conditions::Asked;
use crate::jump::Meaning::{self, Call, Jump, When};

/// Bits D21 to D13.
pub const CODE_BITS: u32 = 9;

pub struct Listed {
    pub code: u16,
    pub mnemonic: &'static str,
    pub meaning: Meaning,
}

const fn listed(code: u16, mnemonic: &'static str, meaning: Meaning) -> Listed {
    Listed { code, mnemonic, meaning }
}

pub const LISTED: [Listed; 36] = [
    listed(0b100_000000, "JMP", Jump),
    listed(0b101_000000, "CALL", Call),
    listed(0b010_000000, "JNCA", When(Asked::Ca, false)),
    listed(0b010_000010, "JCA", When(Asked::Ca, true)),
    listed(0b010_000100, "JNCB", When(Asked::Cb, false)),
    listed(0b010_000110, "JCB", When(Asked::Cb, true)),
    listed(0b010_001000, "JNZA", When(Asked::Za, false)),
    listed(0b010_001010, "JZA", When(Asked::Za, true)),
    listed(0b010_001100, "JNZB", When(Asked::Zb, false)),
    listed(0b010_001110, "JZB", When(Asked::Zb, true)),
    listed(0b010_010000, "JNOVA0", When(Asked::Ova0, false)),
    listed(0b010_010010, "JOVA0", When(Asked::Ova0, true)),
    listed(0b010_010100, "JNOVB0", When(Asked::Ovb0, false)),
    listed(0b010_010110, "JOVB0", When(Asked::Ovb0, true)),
    listed(0b010_011000, "JNOVA1", When(Asked::Ova1, false)),
    listed(0b010_011010, "JOVA1", When(Asked::Ova1, true)),
    listed(0b010_011100, "JNOVB1", When(Asked::Ovb1, false)),
    listed(0b010_011110, "JOVB1", When(Asked::Ovb1, true)),
    listed(0b010_100000, "JNSA0", When(Asked::Sa0, false)),
    listed(0b010_100010, "JSA0", When(Asked::Sa0, true)),
    listed(0b010_100100, "JNSB0", When(Asked::Sb0, false)),
    listed(0b010_100110, "JSB0", When(Asked::Sb0, true)),
    listed(0b010_101000, "JNSA1", When(Asked::Sa1, false)),
    listed(0b010_101010, "JSA1", When(Asked::Sa1, true)),
    listed(0b010_101100, "JNSB1", When(Asked::Sb1, false)),
    listed(0b010_101110, "JSB1", When(Asked::Sb1, true)),
    listed(0b010_110000, "JDPL0", When(Asked::LowDpIs0, true)),
    listed(0b010_110001, "JDPLN0", When(Asked::LowDpIs0, false)),
    listed(0b010_110010, "JDPLF", When(Asked::LowDpIs15, true)),
    listed(0b010_110011, "JDPLNF", When(Asked::LowDpIs15, false)),
    listed(0b010_110100, "JNSIAK", When(Asked::Siack, false)),
    listed(0b010_110110, "JSIAK", When(Asked::Siack, true)),
    listed(0b010_111000, "JNSOAK", When(Asked::Soack, false)),
    listed(0b010_111010, "JSOAK", When(Asked::Soack, true)),
    listed(0b010_111100, "JNRQM", When(Asked::Rqm, false)),
    listed(0b010_111110, "JRQM", When(Asked::Rqm, true)),
];

/// The list, with a place for every code.
const BY_CODE: [Option<Meaning>; 1 << CODE_BITS] = {
    let mut by_code = [None; 1 << CODE_BITS];
    let mut number = 0;
    while number < LISTED.len() {
        by_code[LISTED[number].code as usize] = Some(LISTED[number].meaning);
        number += 1;
    }
    by_code
};

/// What a code means, if it is listed.
#[inline]
pub fn meaning(code: u16) -> Option<Meaning> {
    BY_CODE[usize::from(code)]
}
