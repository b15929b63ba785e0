//! Words of the 77C25 put together from the data book's tables, without help from the emulator. The numbers of the fields' values
//! are those of the smaller chip, but for TRB.

use crate::assemble::{ldi_on, mov_on, op_on, rt_on, Op};
use crate::machine::C25;

/// Source 0.
pub const SRC_TRB: u32 = 0;
/// Destination 14.
pub const DST_TRB: u32 = 14;

pub const JMP: u32 = 0x100;
pub const CALL: u32 = 0x140;
pub const JNCA: u32 = 0x080;
pub const JDPL0: u32 = 0x0b0;
pub const JDPLN0: u32 = 0x0b1;
pub const JDPLF: u32 = 0x0b2;
pub const JDPLNF: u32 = 0x0b3;

pub fn op(fields: Op) -> u32 {
    op_on(C25, fields)
}

pub fn rt(fields: Op) -> u32 {
    rt_on(C25, fields)
}

pub fn mov(dst: u32, src: u32) -> u32 {
    mov_on(C25, dst, src)
}

pub fn ldi(id: u32, dst: u32) -> u32 {
    ldi_on(C25, id, dst)
}

/// The code is D21 to D13.
pub fn jp(code: u32, na: u32) -> u32 {
    2 << 22 | code << 13 | na << 2
}
