//! The steps of the instruction counter PC, the data ROM pointer RP and the RAM pointer DP.

use crate::chip::Chip;

/// PC after a word that does not jump: up by one, the last word to 0.
#[inline]
pub fn next_pc(chip: Chip, pc: u16) -> u16 {
    if usize::from(pc) == chip.sizes().words - 1 {
        0
    } else {
        pc + 1
    }
}

/// RP after RPDCR: one taken from it, 0 to the last cell.
#[inline]
pub fn rp_down(chip: Chip, rp: u16) -> u16 {
    if rp == 0 {
        (chip.sizes().cells - 1) as u16
    } else {
        rp - 1
    }
}

/// DP after the fields DPL (on the low four bits, without carry into the row) and DPH-M (on the row, which is all bits above: three
/// on the 77P20, four on the 77C25).
#[inline]
pub fn dp_moved(dp: u16, dpl: u8, dphm: u8) -> u16 {
    let row = dp / 16;
    let low = dp % 16;
    let new_low = match dpl {
        0 => low,
        1 if low == 15 => 0,
        1 => low + 1,
        2 if low == 0 => 15,
        2 => low - 1,
        3 => 0,
        _ => unreachable!("DPL is 0 to 3"),
    };
    let new_row = row ^ u16::from(dphm);
    new_row * 16 + new_low
}

#[cfg(test)]
mod tests {
    use super::*;

    const P20: Chip = Chip::Upd77p20;

    #[test]
    fn pc_goes_up_by_one_and_from_511_to_0() {
        assert_eq!(next_pc(P20, 0), 1);
        assert_eq!(next_pc(P20, 1), 2);
        assert_eq!(next_pc(P20, 255), 256);
        assert_eq!(next_pc(P20, 256), 257);
        assert_eq!(next_pc(P20, 510), 511);
        assert_eq!(next_pc(P20, 511), 0);
    }

    #[test]
    fn stepping_pc_512_times_visits_every_word_and_comes_back() {
        let mut pc = 0;
        for word in 0..512 {
            assert_eq!(pc, word);
            pc = next_pc(P20, pc);
        }
        assert_eq!(pc, 0);
    }

    #[test]
    fn bench_case_7_rp_0_down_is_511() {
        assert_eq!(rp_down(P20, 0), 511);
    }

    #[test]
    fn rp_goes_down_by_one() {
        assert_eq!(rp_down(P20, 1), 0);
        assert_eq!(rp_down(P20, 2), 1);
        assert_eq!(rp_down(P20, 256), 255);
        assert_eq!(rp_down(P20, 511), 510);
    }

    #[test]
    fn stepping_rp_512_times_visits_every_cell_and_comes_back() {
        let mut rp = 511;
        for cell in (0..512).rev() {
            assert_eq!(rp, cell);
            rp = rp_down(P20, rp);
        }
        assert_eq!(rp, 511);
    }

    #[test]
    fn bench_case_7_dp_0fh_up_with_dph_m_1_is_10h() {
        assert_eq!(dp_moved(0x0F, 1, 1), 0x10);
    }

    #[test]
    fn bench_case_1_dpl_0_and_dph_m_0_keep_dp() {
        for dp in 0..128 {
            assert_eq!(dp_moved(dp, 0, 0), dp);
        }
    }

    #[test]
    fn dp_goes_up_without_carry_into_the_row() {
        assert_eq!(dp_moved(0x00, 1, 0), 0x01);
        assert_eq!(dp_moved(0x0E, 1, 0), 0x0F);
        assert_eq!(dp_moved(0x0F, 1, 0), 0x00);
        assert_eq!(dp_moved(0x3F, 1, 0), 0x30);
        assert_eq!(dp_moved(0x7E, 1, 0), 0x7F);
        assert_eq!(dp_moved(0x7F, 1, 0), 0x70);
    }

    #[test]
    fn dp_goes_down_without_borrow_from_the_row() {
        assert_eq!(dp_moved(0x00, 2, 0), 0x0F);
        assert_eq!(dp_moved(0x01, 2, 0), 0x00);
        assert_eq!(dp_moved(0x30, 2, 0), 0x3F);
        assert_eq!(dp_moved(0x70, 2, 0), 0x7F);
        assert_eq!(dp_moved(0x7F, 2, 0), 0x7E);
    }

    #[test]
    fn clearing_takes_the_low_four_bits_only() {
        assert_eq!(dp_moved(0x00, 3, 0), 0x00);
        assert_eq!(dp_moved(0x0F, 3, 0), 0x00);
        assert_eq!(dp_moved(0x5A, 3, 0), 0x50);
        assert_eq!(dp_moved(0x7F, 3, 0), 0x70);
    }

    #[test]
    fn dph_m_is_exclusive_ored_into_the_row() {
        assert_eq!(dp_moved(0x00, 0, 7), 0x70);
        assert_eq!(dp_moved(0x70, 0, 7), 0x00);
        assert_eq!(dp_moved(0x5A, 0, 1), 0x4A);
        assert_eq!(dp_moved(0x5A, 0, 2), 0x7A);
        assert_eq!(dp_moved(0x5A, 0, 4), 0x1A);
        assert_eq!(dp_moved(0x5A, 0, 7), 0x2A);
    }

    #[test]
    fn both_fields_act_in_one_word() {
        assert_eq!(dp_moved(0x70, 2, 7), 0x0F);
        assert_eq!(dp_moved(0x7F, 1, 7), 0x00);
        assert_eq!(dp_moved(0x5A, 3, 3), 0x60);
        assert_eq!(dp_moved(0x29, 1, 6), 0x4A);
    }

    #[test]
    fn up_and_down_undo_each_other_and_the_same_dph_m_twice_undoes_itself() {
        for dp in 0..128 {
            for dphm in 0..8 {
                assert_eq!(dp_moved(dp_moved(dp, 1, dphm), 2, dphm), dp);
                assert_eq!(dp_moved(dp_moved(dp, 2, dphm), 1, dphm), dp);
                assert_eq!(dp_moved(dp_moved(dp, 0, dphm), 0, dphm), dp);
            }
        }
    }

    #[test]
    fn dp_stays_within_its_seven_bits() {
        for dp in 0..128 {
            for dpl in 0..4 {
                for dphm in 0..8 {
                    assert!(dp_moved(dp, dpl, dphm) < 128);
                }
            }
        }
    }
}
