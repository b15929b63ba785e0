//! Between a word and its fields.

use crate::chip::Chip;
use crate::places;
use crate::refusal;

#[derive(Clone, Copy, Debug, Default, PartialEq, Eq)]
pub struct OpFields {
    pub psel: u8,
    pub alu: u8,
    pub asl: u8,
    pub dpl: u8,
    pub dphm: u8,
    pub rpdcr: u8,
    pub src: u8,
    pub dst: u8,
}

/// The fields of a JP word of the 77P20.
#[derive(Clone, Copy, Debug, Default, PartialEq, Eq)]
pub struct JpFields {
    pub brch: u8,
    pub cnd: u8,
    pub na: u16,
    pub spare: u8,
}

/// The fields of a JP word of the 77C25, where jump and condition are one code.
#[derive(Clone, Copy, Debug, Default, PartialEq, Eq)]
pub struct CodeFields {
    pub code: u16,
    pub na: u16,
    pub spare: u8,
}

#[derive(Clone, Copy, Debug, Default, PartialEq, Eq)]
pub struct LdiFields {
    pub id: u16,
    pub spare: u8,
    pub dst: u8,
}

/// `Jp` is a JP word of the 77P20, `JpCode` one of the 77C25; the others are words of either.
#[derive(Clone, Copy, Debug, PartialEq, Eq)]
pub enum Word {
    Op(OpFields),
    Rt(OpFields),
    Jp(JpFields),
    JpCode(CodeFields),
    Ldi(LdiFields),
}

/// The row of the table that a word belongs to.
#[derive(Clone, Copy, Debug, PartialEq, Eq)]
pub enum Kind {
    Op,
    Rt,
    Jp,
    Ldi,
}

const OP: u32 = 0b00;
const RT: u32 = 0b01;
const JP: u32 = 0b10;
const LDI: u32 = 0b11;

/// The fields of a word of the 77P20; `Err(4)` if the word is 2^23 or more.
pub fn take_apart(word: u32) -> Result<Word, u8> {
    take_apart_on(Chip::Upd77p20, word)
}

/// The fields of the chip's word; `Err(4)` if the word has more bits than the chip's words.
pub fn take_apart_on(chip: Chip, word: u32) -> Result<Word, u8> {
    Ok(match kind(chip, word)? {
        Kind::Op => Word::Op(op_fields(chip, word)),
        Kind::Rt => Word::Rt(op_fields(chip, word)),
        Kind::Jp => match chip {
            Chip::Upd77p20 => Word::Jp(jp_fields(word)),
            Chip::Upd77c25 => Word::JpCode(code_fields(word)),
        },
        Kind::Ldi => Word::Ldi(ldi_fields(chip, word)),
    })
}

/// What the two top bits say; `Err(4)` if the word has more bits than the chip's words.
#[inline]
pub fn kind(chip: Chip, word: u32) -> Result<Kind, u8> {
    if word >= 1 << chip.sizes().word_bits {
        return Err(refusal::WORD_TOO_WIDE);
    }
    Ok(match places::kind(chip).read(word) {
        OP => Kind::Op,
        RT => Kind::Rt,
        JP => Kind::Jp,
        _ => Kind::Ldi,
    })
}

/// The fields of an OP or RT word.
#[inline]
pub fn op_fields(chip: Chip, word: u32) -> OpFields {
    let places = places::op(chip);
    OpFields {
        psel: places.psel.read(word) as u8,
        alu: places.alu.read(word) as u8,
        asl: places.asl.read(word) as u8,
        dpl: places.dpl.read(word) as u8,
        dphm: places.dphm.read(word) as u8,
        rpdcr: places.rpdcr.read(word) as u8,
        src: places.src.read(word) as u8,
        dst: places.dst.read(word) as u8,
    }
}

/// The fields of a JP word of the 77P20.
#[inline]
pub fn jp_fields(word: u32) -> JpFields {
    let places = places::JP;
    JpFields {
        brch: places.brch.read(word) as u8,
        cnd: places.cnd.read(word) as u8,
        na: places.na.read(word) as u16,
        spare: places.spare.read(word) as u8,
    }
}

/// The fields of a JP word of the 77C25.
#[inline]
pub fn code_fields(word: u32) -> CodeFields {
    let places = places::CODE;
    CodeFields { code: places.code.read(word) as u16, na: places.na.read(word) as u16, spare: places.spare.read(word) as u8 }
}

/// The fields of an LDI word.
#[inline]
pub fn ldi_fields(chip: Chip, word: u32) -> LdiFields {
    let places = places::ldi(chip);
    LdiFields { id: places.id.read(word) as u16, spare: places.spare.read(word) as u8, dst: places.dst.read(word) as u8 }
}

/// The 77P20's word with these fields; `Err(11)` if one is too wide for its place, or if they are a JP word's of the other chip.
pub fn build(word: &Word) -> Result<u32, u8> {
    build_on(Chip::Upd77p20, word)
}

/// The chip's word with these fields; `Err(11)` if one is too wide for its place, or if they are a JP word's of the other chip.
pub fn build_on(chip: Chip, word: &Word) -> Result<u32, u8> {
    let kind = places::kind(chip);
    match (chip, word) {
        (_, Word::Op(fields)) => Ok(kind.put(OP)? | build_op(chip, fields)?),
        (_, Word::Rt(fields)) => Ok(kind.put(RT)? | build_op(chip, fields)?),
        (Chip::Upd77p20, Word::Jp(fields)) => Ok(kind.put(JP)? | build_jp(fields)?),
        (Chip::Upd77c25, Word::JpCode(fields)) => Ok(kind.put(JP)? | build_code(fields)?),
        (Chip::Upd77p20, Word::JpCode(_)) | (Chip::Upd77c25, Word::Jp(_)) => Err(refusal::FIELD_TOO_WIDE),
        (_, Word::Ldi(fields)) => Ok(kind.put(LDI)? | build_ldi(chip, fields)?),
    }
}

fn build_op(chip: Chip, fields: &OpFields) -> Result<u32, u8> {
    let places = places::op(chip);
    Ok(places.psel.put(fields.psel.into())?
        | places.alu.put(fields.alu.into())?
        | places.asl.put(fields.asl.into())?
        | places.dpl.put(fields.dpl.into())?
        | places.dphm.put(fields.dphm.into())?
        | places.rpdcr.put(fields.rpdcr.into())?
        | places.src.put(fields.src.into())?
        | places.dst.put(fields.dst.into())?)
}

fn build_jp(fields: &JpFields) -> Result<u32, u8> {
    let places = places::JP;
    Ok(places.brch.put(fields.brch.into())?
        | places.cnd.put(fields.cnd.into())?
        | places.na.put(fields.na.into())?
        | places.spare.put(fields.spare.into())?)
}

fn build_code(fields: &CodeFields) -> Result<u32, u8> {
    let places = places::CODE;
    Ok(places.code.put(fields.code.into())? | places.na.put(fields.na.into())? | places.spare.put(fields.spare.into())?)
}

fn build_ldi(chip: Chip, fields: &LdiFields) -> Result<u32, u8> {
    let places = places::ldi(chip);
    Ok(places.id.put(fields.id.into())? | places.spare.put(fields.spare.into())? | places.dst.put(fields.dst.into())?)
}
