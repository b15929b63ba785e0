//! One event on what the caller lends, and its reply.

/// What a call answers: 0 or the refusal's number, the words done (of a run, and 2 of an accepted interrupt), and a value (of kinds 1, 3
/// and 5).
#[repr(C)]
#[derive(Clone, Copy, Debug, Default, PartialEq, Eq)]
pub struct Reply {
    pub number: u8,
    pub words: u16,
    pub value: u16,
}

#[repr(C)]
pub(crate) struct Event {
    pub kind: u32,
    pub value: u32,
}

/// A chip's call as C has it: the record, then program, data ROM and RAM, each with its length, and the event.
pub(crate) type InPlace<Record> = unsafe extern "C" fn(*mut Record, *const u32, usize, *const u16, usize, *mut u16, usize, Event) -> Reply;

/// One event by a call of the library: each pointer goes with its slice's own length; the record and the RAM are lent to this call alone.
///
/// # Safety
///
/// The call is one of the library's, which ask for no more than that.
#[inline]
pub(crate) unsafe fn in_place<Record>(
    call: InPlace<Record>,
    registers: &mut Record,
    program: &[u32],
    rom: &[u16],
    ram: &mut [u16],
    event: Event,
) -> Reply {
    call(registers, program.as_ptr(), program.len(), rom.as_ptr(), rom.len(), ram.as_mut_ptr(), ram.len(), event)
}
