//! The proved core of either chip, through the C interface, in the emulator's terms.

use bemulatsho::{upd77c25, BothFlags, WordOf};
use emulator::{Chip, CodeFields, Flags, JpFields, LdiFields, OpFields, Registers, Reply, Word};

/// The record of either chip: the 77P20 is lent all of it but TRB.
pub type Record = upd77c25::Registers;

pub fn event(chip: Chip, record: &mut Record, program: &[u32], rom: &[u16], ram: &mut [u16], kind: u32, value: u32) -> Reply {
    let reply = match chip {
        Chip::Upd77p20 => bemulatsho::event(&mut record.registers, program, rom, ram, kind, value),
        Chip::Upd77c25 => upd77c25::event(record, program, rom, ram, kind, value),
    };
    Reply { number: reply.number, words: reply.words, value: reply.value }
}

fn flags(f: &Flags) -> bemulatsho::Flags {
    bemulatsho::Flags { s1: f.s1, s0: f.s0, c: f.c, z: f.z, ov1: f.ov1, ov0: f.ov0 }
}

pub fn record(r: &Registers) -> Record {
    let registers = bemulatsho::Registers {
        pc: r.pc,
        stack: r.stack,
        flags: BothFlags { a: flags(&r.flags_a), b: flags(&r.flags_b) },
        si: r.si,
        siack: r.siack,
        depth: r.depth,
        a: r.a,
        b: r.b,
        k: r.k,
        l: r.l,
        tr: r.tr,
        dr: r.dr,
        so: r.so,
        dp: r.dp,
        rp: r.rp,
        sr: r.sr,
        soack: r.soack,
        sorq: r.sorq,
    };
    Record { registers, trb: r.trb }
}

pub fn take_apart(chip: Chip, word: u32) -> Result<Word, u8> {
    match chip {
        Chip::Upd77p20 => bemulatsho::take_apart(word)
            .map(|word| taken(word, |f| Word::Jp(JpFields { brch: f.brch, cnd: f.cnd, na: f.na, spare: f.spare }))),
        Chip::Upd77c25 => {
            upd77c25::take_apart(word).map(|word| taken(word, |f| Word::JpCode(CodeFields { code: f.code, na: f.na, spare: f.spare })))
        }
    }
}

/// An OP word's fields in the terms of the other side.
macro_rules! op {
    ($fields:expr, $($other:ident)::+) => {{
        let f = $fields;
        $($other)::+ { psel: f.psel, alu: f.alu, asl: f.asl, dpl: f.dpl, dphm: f.dphm, rpdcr: f.rpdcr, src: f.src, dst: f.dst }
    }};
}

fn taken<Jp>(word: WordOf<Jp>, jp: impl Fn(Jp) -> Word) -> Word {
    match word {
        WordOf::Op(f) => Word::Op(op!(f, OpFields)),
        WordOf::Rt(f) => Word::Rt(op!(f, OpFields)),
        WordOf::Jp(f) => jp(f),
        WordOf::Ldi(f) => Word::Ldi(LdiFields { id: f.id, spare: f.spare, dst: f.dst }),
    }
}

pub fn build(chip: Chip, word: &Word) -> Result<u32, u8> {
    match (chip, *word) {
        (Chip::Upd77p20, Word::Jp(f)) => {
            bemulatsho::build(&WordOf::Jp(bemulatsho::JpFields { brch: f.brch, cnd: f.cnd, na: f.na, spare: f.spare }))
        }
        (Chip::Upd77c25, Word::JpCode(f)) => upd77c25::build(&WordOf::Jp(upd77c25::CodeFields { code: f.code, na: f.na, spare: f.spare })),
        (Chip::Upd77p20, other) => bemulatsho::build(&no_jump(other)),
        (Chip::Upd77c25, other) => upd77c25::build(&no_jump(other)),
    }
}

fn no_jump<Jp>(word: Word) -> WordOf<Jp> {
    match word {
        Word::Op(f) => WordOf::Op(op!(f, bemulatsho::OpFields)),
        Word::Rt(f) => WordOf::Rt(op!(f, bemulatsho::OpFields)),
        Word::Ldi(f) => WordOf::Ldi(bemulatsho::LdiFields { id: f.id, spare: f.spare, dst: f.dst }),
        Word::Jp(_) | Word::JpCode(_) => unreachable!("a jump of the other chip"),
    }
}
