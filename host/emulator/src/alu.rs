//! The sixteen operations of the arithmetic and logic unit (ALU) on an accumulator and its flags.

use crate::bits::{signed, to_register};

const NONE: u8 = 0;
const OR: u8 = 1;
const AND: u8 = 2;
const XOR: u8 = 3;
const SUB: u8 = 4;
const ADD: u8 = 5;
const SBB: u8 = 6;
const ADC: u8 = 7;
const DEC: u8 = 8;
const INC: u8 = 9;
const CMP: u8 = 10;
const SHR1: u8 = 11;
const SHL1: u8 = 12;
const SHL2: u8 = 13;
const SHL4: u8 = 14;
const XCHG: u8 = 15;

/// An accumulator and its flags.
#[derive(Clone, Copy, Debug, Default, PartialEq, Eq)]
pub struct Accumulator {
    pub value: u16,
    pub s1: bool,
    pub s0: bool,
    pub c: bool,
    pub z: bool,
    pub ov1: bool,
    pub ov0: bool,
}

/// Operation number `code` (0 to 15) on `accumulator` with operand `p`; `other_c` is the other accumulator's carry.
#[inline]
pub fn operate(code: u8, accumulator: Accumulator, p: u16, other_c: bool) -> Accumulator {
    let value = accumulator.value;
    let number = i64::from(value);
    match code {
        NONE => accumulator,
        OR => after_other(value | p, false),
        AND => after_other(value & p, false),
        XOR => after_other(value ^ p, false),
        SUB => subtract(accumulator, p, false),
        ADD => add(accumulator, p, false),
        SBB => subtract(accumulator, p, other_c),
        ADC => add(accumulator, p, other_c),
        DEC => subtract(accumulator, 1, false),
        INC => add(accumulator, 1, false),
        CMP => after_other(!value, false),
        // Halving the signed number and rounding down keeps the sign and drops the lowest bit.
        SHR1 => after_other(to_register(signed(value).div_euclid(2)), value % 2 == 1),
        SHL1 => after_other(to_register(number * 2 + i64::from(other_c)), top_bit(value)),
        SHL2 => after_other(to_register(number * 4 + 3), false),
        SHL4 => after_other(to_register(number * 16 + 15), false),
        XCHG => after_other(to_register((number % 256) * 256 + number / 256), false),
        _ => unreachable!("an operation number is 0 to 15"),
    }
}

fn add(accumulator: Accumulator, operand: u16, carry: bool) -> Accumulator {
    let carry = i64::from(carry);
    let unsigned_sum = i64::from(accumulator.value) + i64::from(operand) + carry;
    let signed_sum = signed(accumulator.value) + signed(operand) + carry;
    after_arithmetic(accumulator, unsigned_sum, signed_sum)
}

fn subtract(accumulator: Accumulator, operand: u16, borrow: bool) -> Accumulator {
    let borrow = i64::from(borrow);
    let unsigned_difference = i64::from(accumulator.value) - i64::from(operand) - borrow;
    let signed_difference = signed(accumulator.value) - signed(operand) - borrow;
    after_arithmetic(accumulator, unsigned_difference, signed_difference)
}

/// The accumulator after SUB, ADD, SBB, ADC, DEC or INC, whose result is given as the whole numbers it would be
/// if registers had no end.
fn after_arithmetic(old: Accumulator, unsigned_result: i64, signed_result: i64) -> Accumulator {
    let value = to_register(unsigned_result);
    let s0 = top_bit(value);
    let carry = unsigned_result > 65535;
    let borrow = unsigned_result < 0;
    let ov0 = !(-32768..=32767).contains(&signed_result);
    let (s1, ov1) = if !old.ov1 { (s0, ov0) } else { (old.s1, !(ov0 && s0 != old.s1)) };
    Accumulator { value, s1, s0, c: carry || borrow, z: value == 0, ov1, ov0 }
}

/// The accumulator after an operation that is neither none nor one of the six above.
fn after_other(value: u16, c: bool) -> Accumulator {
    let s0 = top_bit(value);
    Accumulator { value, s1: s0, s0, c, z: value == 0, ov1: false, ov0: false }
}

fn top_bit(value: u16) -> bool {
    value >= 32768
}

#[cfg(test)]
mod tests;
