//! One word.

use crate::accumulators;
use crate::alu;
use crate::bus;
use crate::chip::Chip;
use crate::conditions;
use crate::destination;
use crate::jump::{jp_word, JpWord, Meaning};
use crate::operand;
use crate::pointers::{dp_moved, next_pc, rp_down};
use crate::refusals_of_words;
use crate::registers::Registers;
use crate::stack;
use crate::word::{kind, ldi_fields, op_fields, Kind, LdiFields, OpFields};

const DPL_KEEP: u8 = 0;
const DPH_M_KEEP: u8 = 0;

/// When DPH-M moves the row: at the end of its word, as the rules say, or before the move of its word, as on the trial desk.
pub(crate) const ROW_LAST: bool = false;
pub(crate) const ROW_FIRST: bool = true;

/// `step_on` the 77P20.
#[inline]
pub fn step(registers: &mut Registers, program: &[u32], rom: &[u16], ram: &mut [u16]) -> Result<(), u8> {
    step_on(Chip::Upd77p20, registers, program, rom, ram)
}

/// The word at PC, carried out whole; or `Err` with its refusal number, and nothing has changed.
///
/// Expects lengths and registers that passed refusals 1 and 2, and leaves registers that pass them again.
#[inline]
pub fn step_on(chip: Chip, registers: &mut Registers, program: &[u32], rom: &[u16], ram: &mut [u16]) -> Result<(), u8> {
    step_with::<ROW_LAST>(chip, registers, program, rom, ram)
}

/// `step_on` with a time for DPH-M.
#[inline]
pub(crate) fn step_with<const ROW: bool>(
    chip: Chip,
    registers: &mut Registers,
    program: &[u32],
    rom: &[u16],
    ram: &mut [u16],
) -> Result<(), u8> {
    let word = program[usize::from(registers.pc)];
    match kind(chip, word)? {
        Kind::Op => op::<ROW>(chip, registers, rom, ram, &op_fields(chip, word)),
        Kind::Rt => rt::<ROW>(chip, registers, rom, ram, &op_fields(chip, word)),
        Kind::Jp => jp(chip, registers, &jp_word(chip, word)),
        Kind::Ldi => ldi(chip, registers, rom, ram, &ldi_fields(chip, word)),
    }
}

fn op<const ROW: bool>(chip: Chip, registers: &mut Registers, rom: &[u16], ram: &mut [u16], fields: &OpFields) -> Result<(), u8> {
    refusals_of_words::op(chip, fields, registers, rom)?;
    operate_and_move::<ROW>(chip, registers, rom, ram, fields);
    registers.pc = next_pc(chip, registers.pc);
    Ok(())
}

fn rt<const ROW: bool>(chip: Chip, registers: &mut Registers, rom: &[u16], ram: &mut [u16], fields: &OpFields) -> Result<(), u8> {
    refusals_of_words::rt(chip, fields, registers, rom)?;
    operate_and_move::<ROW>(chip, registers, rom, ram, fields);
    registers.pc = stack::pop(registers);
    Ok(())
}

fn jp(chip: Chip, registers: &mut Registers, word: &JpWord) -> Result<(), u8> {
    let meaning = refusals_of_words::jp(word, registers)?;
    let next = next_pc(chip, registers.pc);
    registers.pc = match meaning {
        Meaning::Jump => word.na,
        Meaning::Call => {
            stack::push(registers, next);
            word.na
        }
        Meaning::When(asked, wanted) if conditions::answer(registers, asked) == wanted => word.na,
        Meaning::When(..) => next,
    };
    Ok(())
}

fn ldi(chip: Chip, registers: &mut Registers, rom: &[u16], ram: &mut [u16], fields: &LdiFields) -> Result<(), u8> {
    refusals_of_words::ldi(chip, fields, registers, rom)?;
    destination::store(chip, registers, rom, ram, fields.dst, fields.id);
    registers.pc = next_pc(chip, registers.pc);
    Ok(())
}

/// All of an OP or RT word but PC. Everything is read before anything is written, but for the row of DP on the trial desk.
#[inline]
fn operate_and_move<const ROW: bool>(chip: Chip, registers: &mut Registers, rom: &[u16], ram: &mut [u16], fields: &OpFields) {
    if ROW == ROW_FIRST {
        move_dp(registers, fields.dst, DPL_KEEP, fields.dphm);
    }
    let bus = bus::value(chip, registers, rom, ram, fields.src);
    operate(registers, ram, bus, fields);
    // The reading comes before the storing: SR as destination keeps the RQM that DR as source has set.
    bus::after_reading(registers, fields.src);
    destination::store(chip, registers, rom, ram, fields.dst, bus);
    move_dp(registers, fields.dst, fields.dpl, if ROW == ROW_FIRST { DPH_M_KEEP } else { fields.dphm });
    move_rp(chip, registers, fields);
}

/// The ALU result and its flags. The ALU does nothing if its accumulator is also the destination.
fn operate(registers: &mut Registers, ram: &[u16], bus: u16, fields: &OpFields) {
    let OpFields { psel, alu, asl, dst, .. } = *fields;
    if alu == 0 || accumulators::is_destination(asl, dst) {
        return;
    }
    let accumulator = accumulators::chosen(registers, asl);
    let operand = operand::value(registers, ram, bus, psel);
    let other_c = accumulators::other_c(registers, asl);
    let result = alu::operate(alu, accumulator, operand, other_c);
    accumulators::store(registers, asl, result);
}

/// DP moves unless the word loads it.
#[inline]
fn move_dp(registers: &mut Registers, dst: u8, dpl: u8, dphm: u8) {
    if dst != destination::DP {
        registers.dp = dp_moved(registers.dp, dpl, dphm);
    }
}

/// RP moves unless the word has just loaded it.
#[inline]
fn move_rp(chip: Chip, registers: &mut Registers, fields: &OpFields) {
    if fields.dst != destination::RP && fields.rpdcr == 1 {
        registers.rp = rp_down(chip, registers.rp);
    }
}
