//! The jumps that were met, of each chip in its own way.

use super::field::Field;
use emulator::branch::{CALL, JUMP_ON_CONDITION};
use emulator::jump::Meaning;
use emulator::jump_codes::{Listed, CODE_BITS, LISTED};
use emulator::refusal::{NO_SUCH_BRANCH, UNUSED_BITS_SET};
use emulator::{Chip, CodeFields, JpFields, Word};

pub trait Jumps {
    /// A JP word that finished: PC of the word behind it, and PC after it.
    fn finished(&mut self, word: &Word, next: u16, pc: u16);

    /// A JP word that was refused.
    fn refused(&mut self, word: &Word, number: u8);

    fn fields(&self) -> Vec<&Field>;
}

pub fn of(chip: Chip) -> Box<dyn Jumps> {
    match chip {
        Chip::Upd77p20 => Box::new(ByBranch::new()),
        Chip::Upd77c25 => Box::new(ByCode::new()),
    }
}

/// The 77P20.
struct ByBranch {
    branches: Field,
    // Condition and whether it held.
    conditions: Field,
    // The field that alone was set where it is not used: spare bits and CND by BRCH.
    unused: Field,
}

impl ByBranch {
    fn new() -> ByBranch {
        ByBranch {
            // Words with another BRCH are refused.
            branches: Field::new("BRCH", 8).without([0, 1, 3, 6, 7]),
            conditions: Field::new("condition and its outcome", 64),
            unused: Field::new("unused bits (0, 1, 2 spare under 010, 100, 101; 3, 4 CND under 100, 101)", 5),
        }
    }
}

impl Jumps for ByBranch {
    fn finished(&mut self, word: &Word, next: u16, pc: u16) {
        let Word::Jp(JpFields { brch, cnd, na, .. }) = *word else { return };
        self.branches.met(usize::from(brch));
        // A jump to the next word looks the same taken or not.
        if brch == JUMP_ON_CONDITION && na != next {
            self.conditions.met(usize::from(cnd) * 2 + usize::from(pc != next));
        }
    }

    fn refused(&mut self, word: &Word, number: u8) {
        let Word::Jp(f) = word else { return };
        match number {
            UNUSED_BITS_SET if f.brch == JUMP_ON_CONDITION => self.unused.met(0),
            UNUSED_BITS_SET if f.cnd == 0 => self.unused.met(1 + usize::from(f.brch == CALL)),
            UNUSED_BITS_SET if f.spare == 0 => self.unused.met(3 + usize::from(f.brch == CALL)),
            _ => {}
        }
    }

    fn fields(&self) -> Vec<&Field> {
        vec![&self.branches, &self.conditions, &self.unused]
    }
}

/// The 77C25.
struct ByCode {
    // The place of a code in the data book's list, and whether it was taken.
    listed: Field,
    // A code that the list does not have.
    unlisted: Field,
    // The spare bits of a word that only they refused, by the kind of jump.
    spare: Field,
}

impl ByCode {
    fn new() -> ByCode {
        let always = LISTED.iter().zip(0..).filter(|(listed, _)| !matches!(listed.meaning, Meaning::When(..)));
        ByCode {
            // A jump on no condition is never untaken.
            listed: Field::new("listed jump and its outcome", 2 * LISTED.len()).without(always.map(|(_, place)| 2 * place)),
            unlisted: Field::new("refusal of jump code", 1 << CODE_BITS).without(LISTED.map(|Listed { code, .. }| usize::from(code))),
            // With spare bits 0 none is refused.
            spare: Field::new("spare bits of a jump (0 to 3), a call (4 to 7), a conditional jump (8 to 11)", 12).without([0, 4, 8]),
        }
    }
}

impl Jumps for ByCode {
    fn finished(&mut self, word: &Word, next: u16, pc: u16) {
        let Word::JpCode(CodeFields { code, na, .. }) = *word else { return };
        let place = LISTED.iter().position(|listed| listed.code == code).expect("a code of the list");
        // A jump to the next word looks the same taken or not.
        if na != next {
            self.listed.met(2 * place + usize::from(pc != next));
        }
    }

    fn refused(&mut self, word: &Word, number: u8) {
        let Word::JpCode(CodeFields { code, spare, .. }) = *word else { return };
        match number {
            NO_SUCH_BRANCH => self.unlisted.met(usize::from(code)),
            UNUSED_BITS_SET => {
                let kind = LISTED.iter().position(|listed| listed.code == code).map_or(2, |place| place.min(2));
                self.spare.met(4 * kind + usize::from(spare));
            }
            _ => {}
        }
    }

    fn fields(&self) -> Vec<&Field> {
        vec![&self.listed, &self.unlisted, &self.spare]
    }
}
