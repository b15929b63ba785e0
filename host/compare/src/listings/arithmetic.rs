//! The chip's numbers as plain whole numbers. Nothing here is taken from either implementation.

/// The signed number that a 16-bit register holds.
pub fn signed(register: u16) -> i64 {
    let number = i64::from(register);
    if number < 32768 {
        number
    } else {
        number - 65536
    }
}

/// A whole number kept to 16 bits.
pub fn kept(number: i64) -> u16 {
    number.rem_euclid(65536) as u16
}

/// Whether 16 bits hold the number.
pub fn fits(number: i64) -> bool {
    (-32768..=32767).contains(&number)
}

/// The nearest number that 16 bits hold.
pub fn saturated(number: i64) -> i64 {
    number.clamp(-32768, 32767)
}

/// M as a number: the product divided by 32768, rounded down. Only -32768 squared does not fit, and wraps.
pub fn product(k: i64, l: i64) -> i64 {
    signed(kept((k * l).div_euclid(32768)))
}

/// A data ROM cell as it comes to L: 13 bits with three zeros below.
pub fn coefficient(cell: u16) -> i64 {
    signed(kept(i64::from(cell) * 8))
}

/// The data ROM cell of the coefficient n / 4096.
pub fn cell(n: i64) -> u16 {
    n.rem_euclid(8192) as u16
}
