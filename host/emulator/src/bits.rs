//! A 16-bit register as a number and as a row of bits.

/// The signed number that a 16-bit register holds.
#[inline]
pub fn signed(register: u16) -> i64 {
    let number = i64::from(register);
    if number < 32768 {
        number
    } else {
        number - 65536
    }
}

/// A whole number kept to 16 bits.
#[inline]
pub fn to_register(number: i64) -> u16 {
    number.rem_euclid(65536) as u16
}

/// All 16 bits in reverse order (SIL).
#[inline]
pub fn reversed(register: u16) -> u16 {
    register.reverse_bits()
}

#[cfg(test)]
mod tests {
    use super::*;

    #[test]
    fn signed_numbers_run_from_minus_32768_to_32767() {
        assert_eq!(signed(0x0000), 0);
        assert_eq!(signed(0x0001), 1);
        assert_eq!(signed(0x1234), 4660);
        assert_eq!(signed(0x7FFF), 32767);
        assert_eq!(signed(0x8000), -32768);
        assert_eq!(signed(0x8001), -32767);
        assert_eq!(signed(0xFFFE), -2);
        assert_eq!(signed(0xFFFF), -1);
    }

    #[test]
    fn numbers_beyond_16_bits_lose_what_is_above() {
        assert_eq!(to_register(0), 0x0000);
        assert_eq!(to_register(32767), 0x7FFF);
        assert_eq!(to_register(32768), 0x8000);
        assert_eq!(to_register(65535), 0xFFFF);
        assert_eq!(to_register(65536), 0x0000);
        assert_eq!(to_register(65537), 0x0001);
        assert_eq!(to_register(131070), 0xFFFE);
        assert_eq!(to_register(0x1_2345_6789), 0x6789);
    }

    #[test]
    fn negative_numbers_are_kept_as_twos_complement() {
        assert_eq!(to_register(-1), 0xFFFF);
        assert_eq!(to_register(-2), 0xFFFE);
        assert_eq!(to_register(-32767), 0x8001);
        assert_eq!(to_register(-32768), 0x8000);
        assert_eq!(to_register(-32769), 0x7FFF);
        assert_eq!(to_register(-65535), 0x0001);
        assert_eq!(to_register(-65536), 0x0000);
        assert_eq!(to_register(-65537), 0xFFFF);
    }

    #[test]
    fn every_register_comes_back_from_its_signed_number() {
        for register in 0..=0xFFFF {
            assert_eq!(to_register(signed(register)), register);
        }
    }

    #[test]
    fn every_signed_number_comes_back_from_its_register() {
        for number in -32768..=32767 {
            assert_eq!(signed(to_register(number)), number);
        }
    }

    #[test]
    fn every_register_comes_back_from_its_unsigned_number() {
        for register in 0..=0xFFFF {
            assert_eq!(to_register(i64::from(register)), register);
        }
    }

    #[test]
    fn bench_case_8_one_reversed_is_8000h() {
        assert_eq!(reversed(0x0001), 0x8000);
    }

    #[test]
    fn reversing_turns_bit_0_into_bit_15_bit_1_into_bit_14_and_so_on() {
        assert_eq!(reversed(0x0000), 0x0000);
        assert_eq!(reversed(0xFFFF), 0xFFFF);
        assert_eq!(reversed(0x8000), 0x0001);
        assert_eq!(reversed(0x0002), 0x4000);
        assert_eq!(reversed(0x0080), 0x0100);
        assert_eq!(reversed(0x00FF), 0xFF00);
        assert_eq!(reversed(0x5555), 0xAAAA);
        assert_eq!(reversed(0x1234), 0x2C48);
        assert_eq!(reversed(0xFFFE), 0x7FFF);
    }

    #[test]
    fn each_bit_of_every_register_is_found_at_its_mirrored_place() {
        for register in 0..=0xFFFF {
            for place in 0..16 {
                let bit = (register >> place) & 1;
                assert_eq!((reversed(register) >> (15 - place)) & 1, bit);
            }
        }
    }

    #[test]
    fn reversing_twice_gives_every_register_back() {
        for register in 0..=0xFFFF {
            assert_eq!(reversed(reversed(register)), register);
        }
    }
}
