//! Words taken apart into the fields of their row, and built from them: those of the 77P20, and what both chips share.

#[repr(C)]
#[derive(Clone, Copy, Debug, Default, PartialEq, Eq)]
pub struct OpFields {
    pub psel: u8,
    pub alu: u8,
    pub asl: u8,
    pub dpl: u8,
    pub dphm: u8,
    pub rpdcr: u8,
    pub src: u8,
    pub dst: u8,
}

#[repr(C)]
#[derive(Clone, Copy, Debug, Default, PartialEq, Eq)]
pub struct JpFields {
    pub brch: u8,
    pub cnd: u8,
    pub na: u16,
    pub spare: u8,
}

#[repr(C)]
#[derive(Clone, Copy, Debug, Default, PartialEq, Eq)]
pub struct LdiFields {
    pub id: u16,
    pub spare: u8,
    pub dst: u8,
}

/// A word of either chip by its row; the fields of a JP word are each chip's own.
#[derive(Clone, Copy, Debug, PartialEq, Eq)]
pub enum WordOf<Jp> {
    Op(OpFields),
    Rt(OpFields),
    Jp(Jp),
    Ldi(LdiFields),
}

/// A word of the 77P20.
pub type Word = WordOf<JpFields>;

/// A word as C holds it: the number of its row, and a place for the fields of each.
#[repr(C)]
#[derive(Clone, Copy, Default)]
pub(crate) struct Rows<Jp> {
    row: u8,
    op: OpFields,
    jp: Jp,
    ldi: LdiFields,
}

#[repr(C)]
pub(crate) struct TakenRows<Jp> {
    refusal: u8,
    rows: Rows<Jp>,
}

#[repr(C)]
pub(crate) struct Built {
    refusal: u8,
    bits: u32,
}

impl<Jp: Copy + Default> WordOf<Jp> {
    /// The fields of the other rows are 0.
    pub(crate) fn rows(&self) -> Rows<Jp> {
        let none = Rows::default();
        match *self {
            WordOf::Op(op) => Rows { row: 0, op, ..none },
            WordOf::Rt(op) => Rows { row: 1, op, ..none },
            WordOf::Jp(jp) => Rows { row: 2, jp, ..none },
            WordOf::Ldi(ldi) => Rows { row: 3, ldi, ..none },
        }
    }
}

impl<Jp> TakenRows<Jp> {
    pub(crate) fn word(self) -> Result<WordOf<Jp>, u8> {
        match (self.refusal, self.rows.row) {
            (0, 0) => Ok(WordOf::Op(self.rows.op)),
            (0, 1) => Ok(WordOf::Rt(self.rows.op)),
            (0, 2) => Ok(WordOf::Jp(self.rows.jp)),
            (0, _) => Ok(WordOf::Ldi(self.rows.ldi)),
            (refusal, _) => Err(refusal),
        }
    }
}

impl Built {
    pub(crate) fn bits(self) -> Result<u32, u8> {
        match self.refusal {
            0 => Ok(self.bits),
            refusal => Err(refusal),
        }
    }
}

extern "C" {
    fn bemulatsho_take_apart(word: u32) -> TakenRows<JpFields>;
    fn bemulatsho_build(rows: Rows<JpFields>) -> Built;
}

/// The fields of a word; refused with 4 if it is 2^23 or more.
pub fn take_apart(word: u32) -> Result<Word, u8> {
    // SAFETY: takes a number and hands a record by value.
    unsafe { bemulatsho_take_apart(word) }.word()
}

/// The word of these fields; refused with 11 if one is too wide.
pub fn build(word: &Word) -> Result<u32, u8> {
    // SAFETY: takes and hands records by value.
    unsafe { bemulatsho_build(word.rows()) }.bits()
}
