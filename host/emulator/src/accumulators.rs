//! A and B with their flags, as ASL chooses between them: 0 is A.

use crate::alu::Accumulator;
use crate::destination;
use crate::registers::{Flags, Registers};

/// The chosen accumulator.
pub fn chosen(registers: &Registers, asl: u8) -> Accumulator {
    let (value, flags) = match asl {
        0 => (registers.a, registers.flags_a),
        _ => (registers.b, registers.flags_b),
    };
    let Flags { s1, s0, c, z, ov1, ov0 } = flags;
    Accumulator { value, s1, s0, c, z, ov1, ov0 }
}

/// C of the accumulator not chosen.
pub fn other_c(registers: &Registers, asl: u8) -> bool {
    match asl {
        0 => registers.flags_b.c,
        _ => registers.flags_a.c,
    }
}

/// Stores the chosen accumulator and its flags.
pub fn store(registers: &mut Registers, asl: u8, accumulator: Accumulator) {
    let Accumulator { value, s1, s0, c, z, ov1, ov0 } = accumulator;
    let flags = Flags { s1, s0, c, z, ov1, ov0 };
    match asl {
        0 => (registers.a, registers.flags_a) = (value, flags),
        _ => (registers.b, registers.flags_b) = (value, flags),
    }
}

/// Whether the chosen accumulator is also the destination.
pub fn is_destination(asl: u8, dst: u8) -> bool {
    match asl {
        0 => dst == destination::A,
        _ => dst == destination::B,
    }
}
