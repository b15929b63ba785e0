//! Which refusal a word meets. A word is asked about before it changes anything. Of the numbers that apply the lowest comes first,
//! but 18 comes after 5 and before 6.

use crate::bus;
use crate::chip::Chip;
use crate::destination;
use crate::jump::{JpWord, Meaning};
use crate::operand;
use crate::refusal;
use crate::registers::Registers;
use crate::stack;
use crate::word::{LdiFields, OpFields};

/// The first number that applies to an OP word.
pub fn op(chip: Chip, fields: &OpFields, registers: &Registers, rom: &[u16]) -> Result<(), u8> {
    let alu_wants_bus = (1..=7).contains(&fields.alu) && fields.psel == operand::BUS;
    let bus_is_used = !destination::is_none(chip, fields.dst) || alu_wants_bus;
    refuse_if(bus::is_none(chip, fields.src) && bus_is_used, refusal::SOURCE_MISSING)?;

    let cell_is_used = fields.src == bus::RO || fields.dst == destination::KLR;
    refuse_if(cell_is_used && cell_too_wide(chip, registers, rom), refusal::CELL_TOO_WIDE)
}

/// The first number that applies to an RT word.
pub fn rt(chip: Chip, fields: &OpFields, registers: &Registers, rom: &[u16]) -> Result<(), u8> {
    op(chip, fields, registers, rom)?;
    refuse_if(registers.depth == 0, refusal::STACK_EMPTY)
}

/// What a JP word means, or the first number that applies to it.
pub fn jp(word: &JpWord, registers: &Registers) -> Result<Meaning, u8> {
    let meaning = word.meaning.ok_or(refusal::NO_SUCH_BRANCH)?;
    refuse_if(word.unused_bits_set, refusal::UNUSED_BITS_SET)?;
    refuse_if(meaning == Meaning::Call && stack::is_full(registers), refusal::STACK_FULL)?;
    Ok(meaning)
}

/// The first number that applies to an LDI word.
pub fn ldi(chip: Chip, fields: &LdiFields, registers: &Registers, rom: &[u16]) -> Result<(), u8> {
    refuse_if(fields.spare != 0, refusal::UNUSED_BITS_SET)?;
    refuse_if(fields.dst == destination::KLR && cell_too_wide(chip, registers, rom), refusal::CELL_TOO_WIDE)
}

fn cell_too_wide(chip: Chip, registers: &Registers, rom: &[u16]) -> bool {
    u32::from(rom[usize::from(registers.rp)]) >= 1 << chip.sizes().cell_bits
}

fn refuse_if(applies: bool, number: u8) -> Result<(), u8> {
    if applies {
        Err(number)
    } else {
        Ok(())
    }
}
