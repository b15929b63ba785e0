//! The refusals of a text and their numbers.

#[derive(Clone, Copy, Debug, PartialEq, Eq)]
pub enum Refusal {
    LentLength = 1,
    CharacterOrLength = 12,
    CheckByte = 13,
    Type = 14,
    Address = 15,
    End = 16,
}

impl Refusal {
    pub fn number(self) -> u8 {
        self as u8
    }
}
