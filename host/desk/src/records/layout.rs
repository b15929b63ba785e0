//! The compact form: its fixed bytes and its limits. docs/RECORDS.md says it for those who write a reader of their own.

/// How a record begins. The byte over 7FH shows a channel of seven bits, CR LF and the LF a change of line ends, and 1AH ends a listing.
pub const MAGIC: [u8; 8] = *b"\x89BMR\r\n\x1a\n";

pub const VERSION: u16 = 1;

/// Magic, version and two bytes of 0.
pub const HEADER: usize = 12;

/// The kinds of block.
pub(super) const TURNS: u8 = b'T';
pub(super) const END: u8 = b'E';

/// The tag and the length before a block's payload, and the check behind it.
pub(super) const BLOCK_HEAD: usize = 5;
pub(super) const CHECK: usize = 8;

/// The number of statements, the number of words sent and the length of the record.
pub(super) const END_PAYLOAD: usize = 24;

/// The longest payload of a block.
pub const LONGEST_PAYLOAD: usize = 1 << 20;

/// The most turns of a block.
pub const MOST_TURNS: usize = 1 << 16;

/// The most statements in all patterns of a block together.
pub const MOST_STATEMENTS: usize = 1 << 15;

/// The longest line of a statement that is kept as a text; with its end it is as long as a script's may be.
pub const LONGEST_LINE: usize = (1 << 16) - 1;

/// The header of this version.
pub(super) fn header() -> [u8; HEADER] {
    let mut header = [0; HEADER];
    header[..8].copy_from_slice(&MAGIC);
    header[8..10].copy_from_slice(&VERSION.to_le_bytes());
    header
}
