//! Instruction words in the manual's mnemonics, a line each. What the mnemonics cannot spell stands behind them in brackets, so that
//! different words of a chip never print alike.

mod jumps;
mod names;
#[cfg(test)]
mod tests;

pub use jumps::{CALL, JUMP, JUMP_ON_CONDITION};

use crate::chip::device::Device;
use crate::chip::word::{take_apart, Jump, Word};
use crate::numbers;
use bemulatsho::upd77c25::CodeFields;
use bemulatsho::{JpFields, LdiFields, OpFields};
use names::{destination, is_second_non, source, ACCUMULATORS, DPL, OPERATIONS, P_SELECT};
use std::fmt::{Arguments, Write};

/// A word in mnemonics: its parts in the order that the manual recommends, then the remarks.
pub fn line(device: Device, word: u32) -> String {
    let mut parts = Parts::default();
    match take_apart(device, word) {
        Ok(Word::Op(fields)) => {
            op(device, fields, &mut parts);
            if parts.spelled.is_empty() {
                parts.spell(format_args!("NOP"));
            }
        }
        Ok(Word::Rt(fields)) => {
            op(device, fields, &mut parts);
            parts.spell(format_args!("RET"));
        }
        Ok(Word::Jp(Jump::Fields(fields))) => jp(fields, &mut parts),
        Ok(Word::Jp(Jump::Code(fields))) => jp_by_code(fields, &mut parts),
        Ok(Word::Ldi(fields)) => ldi(device, fields, &mut parts),
        Err(_) => parts.remark(format_args!("wider than {} bits: {word:X}H", device.word_bits())),
    }
    parts.joined()
}

/// What the mnemonics spell, and the remarks in their brackets.
#[derive(Default)]
struct Parts {
    spelled: String,
    remarks: String,
}

impl Parts {
    fn spell(&mut self, part: Arguments) {
        add(&mut self.spelled, part);
    }

    fn remark(&mut self, remark: Arguments) {
        add(&mut self.remarks, format_args!("[{remark}]"));
    }

    fn joined(mut self) -> String {
        if !self.remarks.is_empty() {
            add(&mut self.spelled, format_args!("{}", self.remarks));
        }
        self.spelled
    }
}

fn add(text: &mut String, part: Arguments) {
    if !text.is_empty() {
        text.push(' ');
    }
    // Writing to a text never fails.
    let _ = text.write_fmt(part);
}

fn op(device: Device, fields: OpFields, parts: &mut Parts) {
    moved(device, fields, parts);
    operated(fields, parts);
    if fields.dpl != 0 {
        parts.spell(format_args!("{}", DPL[usize::from(fields.dpl)]));
    }
    if fields.dphm != 0 {
        parts.spell(format_args!("M{:X}", fields.dphm));
    }
    if fields.rpdcr != 0 {
        parts.spell(format_args!("RPDEC"));
    }
}

fn moved(device: Device, fields: OpFields, parts: &mut Parts) {
    let second_non = is_second_non(device, fields.dst);
    let goes_nowhere = fields.dst == 0 || second_non;
    // Source 0 has something to say where it is TRB and the ALU takes it from the bus.
    let trb_is_operand = device == Device::Upd77c25 && P_SELECT[usize::from(fields.psel)] == "IDB" && has_two_operands(fields);
    if fields.src != 0 || !goes_nowhere || trb_is_operand {
        parts.spell(format_args!("MOV {},{}", destination(device, fields.dst), source(device, fields.src)));
    }
    if second_non {
        parts.remark(format_args!("DST 14"));
    }
}

fn has_two_operands(fields: OpFields) -> bool {
    matches!(fields.alu, 1..=7)
}

fn operated(fields: OpFields, parts: &mut Parts) {
    let operation = OPERATIONS[usize::from(fields.alu)];
    let accumulator = ACCUMULATORS[usize::from(fields.asl)];
    let operand = P_SELECT[usize::from(fields.psel)];
    let two_operands = has_two_operands(fields);
    match fields.alu {
        0 => {}
        _ if two_operands => parts.spell(format_args!("{operation} {accumulator},{operand}")),
        _ => parts.spell(format_args!("{operation} {accumulator}")),
    }
    if !two_operands && fields.psel != 0 {
        parts.remark(format_args!("P-select {operand}"));
    }
    if fields.alu == 0 && fields.asl != 0 {
        parts.remark(format_args!("ASL {accumulator}"));
    }
}

fn jp(fields: JpFields, parts: &mut Parts) {
    let mnemonic = jumps::of_fields(fields.brch, fields.cnd);
    parts.spell(format_args!("{} {}", mnemonic.unwrap_or("JP"), numbers::address(fields.na)));
    if mnemonic.is_none() {
        parts.remark(format_args!("no such branch {:03b}", fields.brch));
    }
    if fields.brch != JUMP_ON_CONDITION && fields.cnd != 0 {
        parts.remark(format_args!("CND {}", fields.cnd));
    }
    spare(fields.spare, parts);
}

fn jp_by_code(fields: CodeFields, parts: &mut Parts) {
    let mnemonic = jumps::of_code(fields.code);
    parts.spell(format_args!("{} {}", mnemonic.unwrap_or("JP"), numbers::address(fields.na)));
    if mnemonic.is_none() {
        parts.remark(format_args!("no such jump code {:03X}H", fields.code));
    }
    spare(fields.spare, parts);
}

fn ldi(device: Device, fields: LdiFields, parts: &mut Parts) {
    parts.spell(format_args!("LDI {},{}", destination(device, fields.dst), numbers::register(fields.id)));
    if is_second_non(device, fields.dst) {
        parts.remark(format_args!("DST 14"));
    }
    spare(fields.spare, parts);
}

fn spare(bits: u8, parts: &mut Parts) {
    if bits != 0 {
        parts.remark(format_args!("spare {bits}"));
    }
}
