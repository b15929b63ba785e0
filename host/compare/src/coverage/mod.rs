//! What the compared runs met on a chip: each code of each field in a word that finished, each condition both ways, what the pointers can do,
//! each refusal, each field of unused bits that alone refused a word, each kind of event answered, each answer to an interrupt. Something
//! that was never met is a failure of the comparison, and so is something that cannot be and was met.

mod field;
mod jumps;
mod pointers;

use emulator::event::INTERRUPT_EDGE;
use emulator::refusal::{CELL_TOO_WIDE, SOURCE_MISSING, STACK_FULL, UNUSED_BITS_SET};
use emulator::status::EI;
use emulator::{Chip, Registers, Word};
use field::Field;
use jumps::Jumps;
use pointers::Pointers;

pub struct Coverage {
    words: usize,
    sources: Field,
    destinations: Field,
    // Operation, accumulator and P-select in one number.
    operations: Field,
    pointers: Pointers,
    jumps: Box<dyn Jumps>,
    loads: Field,
    // The spare bits of an LDI word that they refused.
    spare_of_loads: Field,
    returns: Field,
    refusals: Field,
    kinds: Field,
    // What becomes of an interrupt: with EI 0, with EI 1, on a full stack.
    interrupts: Field,
}

const IGNORED: usize = 0;
const ACCEPTED: usize = 1;
const REFUSED: usize = 2;

impl Coverage {
    pub fn new(chip: Chip) -> Coverage {
        // No event is refused with 11 to 17.
        let refusals = Field::new("refusal", 19).without(11..=17);
        let (refusals, spare) = match chip {
            Chip::Upd77p20 => (refusals, 2),
            Chip::Upd77c25 => (refusals.without([SOURCE_MISSING, CELL_TOO_WIDE].map(usize::from)), 4),
        };
        Coverage {
            words: chip.sizes().words,
            sources: Field::new("source", 16),
            destinations: Field::new("destination", 16),
            operations: Field::new("operation, accumulator and P-select", 128),
            pointers: Pointers::new(chip),
            jumps: jumps::of(chip),
            loads: Field::new("destination of LDI", 16),
            spare_of_loads: Field::new("spare bits of LDI", spare).without([0]),
            returns: Field::new("RT", 2),
            refusals,
            kinds: Field::new("answered event", 8),
            interrupts: Field::new("answer to an interrupt (0 ignored, 1 accepted, 2 refused)", 3),
        }
    }

    /// A word that finished, with the registers before and after it.
    pub fn word(&mut self, word: &Word, before: &Registers, after: &Registers) {
        self.pointers.word(word, before, after);
        match word {
            Word::Op(f) | Word::Rt(f) => {
                self.returns.met(usize::from(matches!(word, Word::Rt(_))));
                self.sources.met(usize::from(f.src));
                self.destinations.met(usize::from(f.dst));
                self.operations.met(usize::from(f.alu) * 8 + usize::from(f.asl) * 4 + usize::from(f.psel));
            }
            Word::Jp(_) | Word::JpCode(_) => {
                let next = (usize::from(before.pc) + 1) % self.words;
                self.jumps.finished(word, next as u16, after.pc);
            }
            Word::Ldi(f) => self.loads.met(usize::from(f.dst)),
        }
    }

    /// A word that was refused.
    pub fn refused(&mut self, word: &Word, number: u8) {
        match word {
            Word::Ldi(f) if number == UNUSED_BITS_SET => self.spare_of_loads.met(usize::from(f.spare)),
            _ => self.jumps.refused(word, number),
        }
    }

    /// The answer to an event, with the registers before it.
    pub fn reply(&mut self, kind: u32, before: &Registers, number: u8) {
        self.refusals.met(usize::from(number));
        if number == 0 {
            self.kinds.met(kind as usize);
        }
        match (kind, number) {
            (INTERRUPT_EDGE, 0) if before.sr & EI == 0 => self.interrupts.met(IGNORED),
            (INTERRUPT_EDGE, 0) => self.interrupts.met(ACCEPTED),
            (INTERRUPT_EDGE, STACK_FULL) => self.interrupts.met(REFUSED),
            _ => {}
        }
    }

    /// What was never met and should have been, and what was met and cannot be.
    pub fn faults(&self) -> Vec<String> {
        let mut fields = vec![&self.sources, &self.destinations, &self.operations, &self.loads, &self.spare_of_loads];
        fields.extend([&self.returns, &self.refusals, &self.kinds, &self.interrupts]);
        fields.extend(self.pointers.fields());
        fields.extend(self.jumps.fields());
        fields.iter().flat_map(|field| field.faults()).collect()
    }
}
