//! The refusal numbers.

pub const LENGTH: u8 = 1;
pub const REGISTER_TOO_WIDE: u8 = 2;
pub const EVENT_NOT_ALLOWED: u8 = 3;
pub const WORD_TOO_WIDE: u8 = 4;
pub const NO_SUCH_BRANCH: u8 = 5;
pub const SOURCE_MISSING: u8 = 6;
pub const CELL_TOO_WIDE: u8 = 7;
pub const STACK_EMPTY: u8 = 8;
pub const STACK_FULL: u8 = 9;
pub const NOTHING_TO_SEND: u8 = 10;
pub const FIELD_TOO_WIDE: u8 = 11;
/// Its place is after 5 and before 6.
pub const UNUSED_BITS_SET: u8 = 18;
