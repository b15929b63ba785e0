//! The branch codes (BRCH) of the 77P20; every other is refused.

use crate::conditions;
use crate::jump::Meaning;

pub const JUMP_ON_CONDITION: u8 = 0b010;
pub const JUMP: u8 = 0b100;
pub const CALL: u8 = 0b101;

/// What BRCH and CND mean together, if there is such a branch.
#[inline]
pub fn meaning(brch: u8, cnd: u8) -> Option<Meaning> {
    match brch {
        JUMP => Some(Meaning::Jump),
        CALL => Some(Meaning::Call),
        JUMP_ON_CONDITION => {
            let (asked, wanted) = conditions::of_77p20(cnd);
            Some(Meaning::When(asked, wanted))
        }
        _ => None,
    }
}
