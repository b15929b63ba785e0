//! The multiplier's outputs M and N, which follow from K and L.

use crate::bits::{signed, to_register};

/// M of K and L: the signed product divided by 32768, rounded down, kept to 16 bits.
#[inline]
pub fn m(k: u16, l: u16) -> u16 {
    let product = signed(k) * signed(l);
    // Euclidean division by a positive number rounds down, below zero too.
    to_register(product.div_euclid(32768))
}

/// N of K and L: the product's low 15 bits doubled.
#[inline]
pub fn n(k: u16, l: u16) -> u16 {
    let product = signed(k) * signed(l);
    let low_15_bits = product.rem_euclid(32768);
    to_register(low_15_bits * 2)
}

#[cfg(test)]
mod tests {
    use super::*;

    fn m_and_n(k: u16, l: u16) -> (u16, u16) {
        (m(k, l), n(k, l))
    }

    #[test]
    fn bench_case_3_minus_32768_squared() {
        assert_eq!(m_and_n(0x8000, 0x8000), (0x8000, 0x0000));
    }

    #[test]
    fn bench_case_3_minus_one_times_one() {
        assert_eq!(m_and_n(0xFFFF, 0x0001), (0xFFFF, 0xFFFE));
    }

    #[test]
    fn products_of_two_positive_numbers() {
        assert_eq!(m_and_n(0x0001, 0x0001), (0x0000, 0x0002));
        assert_eq!(m_and_n(0x0001, 0x7FFF), (0x0000, 0xFFFE));
        assert_eq!(m_and_n(0x0002, 0x4000), (0x0001, 0x0000));
        assert_eq!(m_and_n(0x4000, 0x4000), (0x2000, 0x0000));
        assert_eq!(m_and_n(0x7FFF, 0x7FFF), (0x7FFE, 0x0002));
    }

    #[test]
    fn products_of_two_negative_numbers() {
        assert_eq!(m_and_n(0xFFFF, 0xFFFF), (0x0000, 0x0002));
        assert_eq!(m_and_n(0x8000, 0xFFFF), (0x0001, 0x0000));
        assert_eq!(m_and_n(0x8001, 0x8001), (0x7FFE, 0x0002));
        assert_eq!(m_and_n(0x8000, 0x8001), (0x7FFF, 0x0000));
        assert_eq!(m_and_n(0xC000, 0xC000), (0x2000, 0x0000));
    }

    #[test]
    fn negative_products_are_rounded_down() {
        assert_eq!(m_and_n(0x0003, 0xFFFF), (0xFFFF, 0xFFFA));
        assert_eq!(m_and_n(0x8000, 0x0001), (0xFFFF, 0x0000));
        assert_eq!(m_and_n(0x8000, 0x7FFF), (0x8001, 0x0000));
        assert_eq!(m_and_n(0x8001, 0x7FFF), (0x8001, 0xFFFE));
        assert_eq!(m_and_n(0xC000, 0x4000), (0xE000, 0x0000));
        assert_eq!(m_and_n(0xFFFF, 0x7FFF), (0xFFFF, 0x0002));
    }

    #[test]
    fn a_product_with_zero_gives_zero_twice() {
        for k in 0..=0xFFFF {
            assert_eq!(m_and_n(k, 0x0000), (0x0000, 0x0000));
            assert_eq!(m_and_n(0x0000, k), (0x0000, 0x0000));
        }
    }

    #[test]
    fn k_and_l_may_be_exchanged() {
        for k in 0..=0xFFFF {
            for l in [0x0001, 0x1234, 0x7FFF, 0x8000, 0x8001, 0xFFFF] {
                assert_eq!(m_and_n(k, l), m_and_n(l, k));
            }
        }
    }

    #[test]
    fn m_and_n_together_are_the_product_unless_both_are_8000h() {
        for k in 0..=0xFFFF_u16 {
            for l in [0x0001_u16, 0x0003, 0x1234, 0x7FFF, 0x8000, 0x8001, 0xFFFF] {
                if (k, l) != (0x8000, 0x8000) {
                    let (m, n) = m_and_n(k, l);
                    let together = i64::from(m as i16) * 32768 + i64::from(n) / 2;
                    assert_eq!(together, i64::from(k as i16) * i64::from(l as i16));
                    assert_eq!(n % 2, 0);
                }
            }
        }
    }
}
