//! The jumps by their names: of BRCH and CND on the 77P20, of one code on the 77C25.

// Eight a line, as the rules count them.
#[rustfmt::skip]
const CONDITIONS: [&str; 32] = [
    "JNCA", "JCA", "JNCB", "JCB", "JNZA", "JZA", "JNZB", "JZB",
    "JNOVA0", "JOVA0", "JNOVB0", "JOVB0", "JNOVA1", "JOVA1", "JNOVB1", "JOVB1",
    "JNSA0", "JSA0", "JNSB0", "JSB0", "JNSA1", "JSA1", "JNSB1", "JSB1",
    "JDPL0", "JDPLF", "JNSIAK", "JSIAK", "JNSOAK", "JSOAK", "JNRQM", "JRQM",
];

pub const JUMP_ON_CONDITION: u8 = 0b010;
pub const JUMP: u8 = 0b100;
pub const CALL: u8 = 0b101;

/// None where no jump has this BRCH.
pub fn of_fields(brch: u8, cnd: u8) -> Option<&'static str> {
    match brch {
        JUMP_ON_CONDITION => Some(CONDITIONS[usize::from(cnd)]),
        JUMP => Some("JMP"),
        CALL => Some("CALL"),
        _ => None,
    }
}

/// None where the code is not listed. A listed one is BRCH, CND and 0, or one of two more, whose last bit turns the condition before it round.
pub fn of_code(code: u16) -> Option<&'static str> {
    let (brch, cnd, last) = ((code >> 6) as u8, (code >> 1 & 31) as u8, code & 1);
    match (brch, cnd, last) {
        (JUMP_ON_CONDITION, _, 0) | (JUMP | CALL, 0, 0) => of_fields(brch, cnd),
        (JUMP_ON_CONDITION, 24, 1) => Some("JDPLN0"),
        (JUMP_ON_CONDITION, 25, 1) => Some("JDPLNF"),
        _ => None,
    }
}

#[cfg(test)]
mod tests {
    use super::*;
    use emulator::jump_codes::{CODE_BITS, LISTED};

    /// Against the emulator's list, which has a line a code.
    #[test]
    fn the_36_codes_of_the_77c25_have_their_names() {
        for code in 0..1 << CODE_BITS {
            let listed = LISTED.iter().find(|listed| listed.code == code).map(|listed| listed.mnemonic);
            assert_eq!(of_code(code), listed, "{code:03X}H");
        }
        assert_eq!(LISTED.len(), 36);
    }
}
