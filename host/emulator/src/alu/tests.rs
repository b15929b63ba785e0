//! The operations by the rules paper: values, flags, and the bench cases that are about them.

use super::*;
use crate::multiplier::m;

const ARITHMETIC: [u8; 6] = [SUB, ADD, SBB, ADC, DEC, INC];
const OTHER: [u8; 9] = [OR, AND, XOR, CMP, SHR1, SHL1, SHL2, SHL4, XCHG];
const SAMPLES: [u16; 10] = [0x0000, 0x0001, 0x1234, 0x5555, 0x7FFE, 0x7FFF, 0x8000, 0x8001, 0xABCD, 0xFFFF];

/// An accumulator with its flags in the paper's order: S1, S0, C, Z, OV1, OV0.
fn state(value: u16, flags: [u8; 6]) -> Accumulator {
    let [s1, s0, c, z, ov1, ov0] = flags.map(|flag| flag == 1);
    Accumulator { value, s1, s0, c, z, ov1, ov0 }
}

/// All 64 settings of the six flags.
fn every_flags() -> impl Iterator<Item = [u8; 6]> {
    (0..64).map(|setting| [32, 16, 8, 4, 2, 1].map(|bit| setting / bit % 2))
}

/// The operation on a value whose OV1 and other flags are 0.
fn fresh(code: u8, value: u16, p: u16, other_c: u8) -> Accumulator {
    operate(code, state(value, [0; 6]), p, other_c == 1)
}

/// The result must be the same from every setting of the old flags.
fn assert_from_every_flags(code: u8, value: u16, p: u16, other_c: u8, after: Accumulator) {
    for flags in every_flags() {
        assert_eq!(operate(code, state(value, flags), p, other_c == 1), after);
    }
}

/// The result must be the same from every setting of the old flags in which OV1 is 0.
fn assert_when_ov1_was_0(code: u8, value: u16, p: u16, other_c: u8, after: Accumulator) {
    for flags in every_flags().filter(|[_, _, _, _, ov1, _]| *ov1 == 0) {
        assert_eq!(operate(code, state(value, flags), p, other_c == 1), after);
    }
}

#[test]
fn operations_are_numbered_as_in_the_paper() {
    let results = [
        (0, 0x1234),
        (1, 0x1F35),
        (2, 0x0200),
        (3, 0x1D35),
        (4, 0x0333),
        (5, 0x2135),
        (6, 0x0332),
        (7, 0x2136),
        (8, 0x1233),
        (9, 0x1235),
        (10, 0xEDCB),
        (11, 0x091A),
        (12, 0x2469),
        (13, 0x48D3),
        (14, 0x234F),
        (15, 0x3412),
    ];
    for (code, result) in results {
        assert_eq!(fresh(code, 0x1234, 0x0F01, 1).value, result);
    }
}

#[test]
fn bench_case_1_none_changes_nothing() {
    for flags in every_flags() {
        for value in SAMPLES {
            for p in SAMPLES {
                let before = state(value, flags);
                assert_eq!(operate(NONE, before, p, false), before);
                assert_eq!(operate(NONE, before, p, true), before);
            }
        }
    }
}

#[test]
fn bench_case_4_the_first_addition_sets_ov1_and_the_second_clears_it() {
    let first = state(0xFFFE, [1, 1, 0, 0, 1, 1]);
    assert_when_ov1_was_0(ADD, 0x7FFF, 0x7FFF, 0, first);
    let second = state(0x7FFE, [1, 0, 1, 0, 0, 1]);
    assert_eq!(operate(ADD, first, 0x8000, false), second);
}

#[test]
fn bench_case_5_8000h_added_to_itself() {
    assert_when_ov1_was_0(ADD, 0x8000, 0x8000, 0, state(0x0000, [0, 0, 1, 1, 1, 1]));
}

#[test]
fn bench_case_6_shifts() {
    assert_from_every_flags(SHR1, 0x8001, 0, 0, state(0xC000, [1, 1, 1, 0, 0, 0]));
    assert_from_every_flags(SHL2, 0x0001, 0, 0, state(0x0007, [0, 0, 0, 0, 0, 0]));
    assert_from_every_flags(SHL4, 0x0001, 0, 0, state(0x001F, [0, 0, 0, 0, 0, 0]));
}

#[test]
fn bench_case_10_three_additions_of_minus_one_as_m() {
    let mut accumulator = state(0x0000, [0; 6]);
    let mut sum_of_products = 0;
    #[rustfmt::skip]
    let after_each = [
        state(0xFFFF, [1, 1, 0, 0, 0, 0]),
        state(0xFFFE, [1, 1, 1, 0, 0, 0]),
        state(0xFFFD, [1, 1, 1, 0, 0, 0]),
    ];
    for expected in after_each {
        accumulator = operate(ADD, accumulator, m(0xFFFF, 0x0001), false);
        sum_of_products -= 1;
        assert_eq!(accumulator, expected);
    }
    assert_eq!(sum_of_products - 32768 * signed(accumulator.value), 98301);
}

#[test]
fn the_limit_of_three_additions_is_sharp() {
    let first = operate(ADD, state(0x7FFF, [0; 6]), 0x7FFF, false);
    assert_eq!(first, state(0xFFFE, [1, 1, 0, 0, 1, 1]));
    let second = operate(ADD, first, 0x7FFF, false);
    assert_eq!(second, state(0x7FFD, [1, 0, 1, 0, 1, 0]));
    let third = operate(ADD, second, 0x7FFF, false);
    assert_eq!(third, state(0xFFFC, [1, 1, 0, 0, 1, 1]));
    let fourth = operate(ADD, third, 0x8001, false);
    assert_eq!(fourth, state(0x7FFD, [1, 0, 1, 0, 0, 1]));
}

#[test]
fn s1_and_ov1_follow_from_all_their_old_values_and_from_s0_and_ov0() {
    // Value and P of four additions, then S0 and OV0 of their results.
    #[rustfmt::skip]
    let additions = [
        (0x0001, 0x0001, 0, 0),
        (0x8000, 0xFFFF, 0, 1),
        (0xFFFF, 0xFFFF, 1, 0),
        (0x7FFF, 0x0001, 1, 1),
    ];
    // Old S1 and OV1, then new S1 and OV1 after each of the four additions.
    let rows = [
        ((0, 0), [(0, 0), (0, 1), (1, 0), (1, 1)]),
        ((1, 0), [(0, 0), (0, 1), (1, 0), (1, 1)]),
        ((0, 1), [(0, 1), (0, 1), (0, 1), (0, 0)]),
        ((1, 1), [(1, 1), (1, 0), (1, 1), (1, 1)]),
    ];
    for ((old_s1, old_ov1), outcomes) in rows {
        for ((value, p, s0, ov0), (s1, ov1)) in additions.into_iter().zip(outcomes) {
            let before = state(value, [old_s1, 0, 0, 0, old_ov1, 0]);
            let after = operate(ADD, before, p, false);
            assert_eq!((after.s0, after.ov0), (s0 == 1, ov0 == 1));
            assert_eq!((after.s1, after.ov1), (s1 == 1, ov1 == 1));
        }
    }
}

#[test]
fn when_ov1_was_1_an_overflow_clears_it_only_if_s0_differs_from_s1() {
    // Value, result and top bit of the result; then operation, P, the other accumulator's C, and C after it.
    let overflows = [
        (0x7FFF, 0x8000, 1, [(SUB, 0xFFFF, 0, 1), (ADD, 0x0001, 0, 0), (SBB, 0xFFFE, 1, 1), (ADC, 0x0000, 1, 0), (INC, 0x0000, 0, 0)]),
        (0x8000, 0x7FFF, 0, [(SUB, 0x0001, 0, 0), (ADD, 0xFFFF, 0, 1), (SBB, 0x0000, 1, 0), (ADC, 0xFFFE, 1, 1), (DEC, 0x0000, 0, 0)]),
    ];
    // S1, the top bit of the result, and OV1 after it.
    for (s1, s0, ov1) in [(0, 0, 1), (0, 1, 0), (1, 0, 0), (1, 1, 1)] {
        for (value, result, top, operations) in overflows {
            for (code, p, other_c, c) in operations {
                if top == s0 {
                    let after = operate(code, state(value, [s1, 0, 0, 0, 1, 0]), p, other_c == 1);
                    assert_eq!(after, state(result, [s1, s0, c, 0, ov1, 1]));
                }
            }
        }
    }
}

#[test]
fn s1_and_ov1_stay_for_each_of_the_six_when_nothing_overflows() {
    for old_s1 in [0, 1] {
        let before = |value| state(value, [old_s1, 1, 1, 1, 1, 1]);
        let after = |value| state(value, [old_s1, 0, 0, 0, 1, 0]);
        assert_eq!(operate(SUB, before(0x0005), 0x0002, false), after(0x0003));
        assert_eq!(operate(ADD, before(0x0005), 0x0002, false), after(0x0007));
        assert_eq!(operate(SBB, before(0x0005), 0x0002, true), after(0x0002));
        assert_eq!(operate(ADC, before(0x0005), 0x0002, true), after(0x0008));
        assert_eq!(operate(DEC, before(0x0005), 0x0002, false), after(0x0004));
        assert_eq!(operate(INC, before(0x0005), 0x0002, false), after(0x0006));
    }
}

#[test]
fn of_the_old_flags_arithmetic_looks_at_s1_and_ov1_only() {
    for code in ARITHMETIC {
        for value in SAMPLES {
            for p in SAMPLES {
                for flags in every_flags() {
                    let [s1, _, _, _, ov1, _] = flags;
                    let bare = state(value, [s1, 0, 0, 0, ov1, 0]);
                    let after = operate(code, state(value, flags), p, true);
                    assert_eq!(after, operate(code, bare, p, true));
                }
            }
        }
    }
}

#[test]
fn of_the_old_flags_the_other_operations_look_at_none() {
    for code in OTHER {
        for value in SAMPLES {
            for p in SAMPLES {
                for other_c in [0, 1] {
                    let after = fresh(code, value, p, other_c);
                    assert_from_every_flags(code, value, p, other_c, after);
                    assert_eq!((after.ov0, after.ov1), (false, false));
                    assert_eq!(after.s1, after.s0);
                }
            }
        }
    }
}

#[test]
fn only_sbb_adc_and_shl1_look_at_the_other_accumulators_carry() {
    for code in NONE..=XCHG {
        for value in SAMPLES {
            for p in SAMPLES {
                let same = fresh(code, value, p, 0) == fresh(code, value, p, 1);
                assert_eq!(same, code != SBB && code != ADC && code != SHL1);
            }
        }
    }
}

#[test]
fn operations_from_dec_to_xchg_do_not_look_at_p() {
    for code in DEC..=XCHG {
        for value in SAMPLES {
            for p in SAMPLES {
                assert_eq!(fresh(code, value, p, 1), fresh(code, value, 0, 1));
            }
        }
    }
}

#[test]
fn or_and_its_flags() {
    assert_from_every_flags(OR, 0x1200, 0x0034, 0, state(0x1234, [0, 0, 0, 0, 0, 0]));
    assert_from_every_flags(OR, 0x0F0F, 0x00FF, 1, state(0x0FFF, [0, 0, 0, 0, 0, 0]));
    assert_from_every_flags(OR, 0x8000, 0x0001, 0, state(0x8001, [1, 1, 0, 0, 0, 0]));
    assert_from_every_flags(OR, 0x0000, 0xFFFF, 0, state(0xFFFF, [1, 1, 0, 0, 0, 0]));
    assert_from_every_flags(OR, 0x0000, 0x0000, 1, state(0x0000, [0, 0, 0, 1, 0, 0]));
}

#[test]
fn and_and_its_flags() {
    assert_from_every_flags(AND, 0xFF00, 0x0FF0, 0, state(0x0F00, [0, 0, 0, 0, 0, 0]));
    assert_from_every_flags(AND, 0xFFFF, 0x8000, 1, state(0x8000, [1, 1, 0, 0, 0, 0]));
    assert_from_every_flags(AND, 0x5555, 0xAAAA, 1, state(0x0000, [0, 0, 0, 1, 0, 0]));
    assert_from_every_flags(AND, 0xFFFF, 0x7FFF, 0, state(0x7FFF, [0, 0, 0, 0, 0, 0]));
}

#[test]
fn xor_and_its_flags() {
    assert_from_every_flags(XOR, 0xFFFF, 0x0F0F, 0, state(0xF0F0, [1, 1, 0, 0, 0, 0]));
    assert_from_every_flags(XOR, 0xFFFF, 0x8001, 1, state(0x7FFE, [0, 0, 0, 0, 0, 0]));
    assert_from_every_flags(XOR, 0x1234, 0x1234, 1, state(0x0000, [0, 0, 0, 1, 0, 0]));
    assert_from_every_flags(XOR, 0x0000, 0x8000, 0, state(0x8000, [1, 1, 0, 0, 0, 0]));
}

#[test]
fn sub_and_its_flags_at_the_boundaries() {
    assert_when_ov1_was_0(SUB, 0x0000, 0x0000, 0, state(0x0000, [0, 0, 0, 1, 0, 0]));
    assert_when_ov1_was_0(SUB, 0x0005, 0x0003, 0, state(0x0002, [0, 0, 0, 0, 0, 0]));
    assert_when_ov1_was_0(SUB, 0x0001, 0x0001, 0, state(0x0000, [0, 0, 0, 1, 0, 0]));
    assert_when_ov1_was_0(SUB, 0x0000, 0x0001, 0, state(0xFFFF, [1, 1, 1, 0, 0, 0]));
    assert_when_ov1_was_0(SUB, 0x8000, 0x0001, 0, state(0x7FFF, [0, 0, 0, 0, 1, 1]));
    assert_when_ov1_was_0(SUB, 0x8001, 0x0001, 0, state(0x8000, [1, 1, 0, 0, 0, 0]));
    assert_when_ov1_was_0(SUB, 0x7FFF, 0xFFFF, 0, state(0x8000, [1, 1, 1, 0, 1, 1]));
    assert_when_ov1_was_0(SUB, 0x7FFE, 0xFFFF, 0, state(0x7FFF, [0, 0, 1, 0, 0, 0]));
    assert_when_ov1_was_0(SUB, 0x0000, 0x8000, 0, state(0x8000, [1, 1, 1, 0, 1, 1]));
    assert_when_ov1_was_0(SUB, 0x8000, 0x8000, 0, state(0x0000, [0, 0, 0, 1, 0, 0]));
    assert_when_ov1_was_0(SUB, 0xFFFF, 0x8000, 0, state(0x7FFF, [0, 0, 0, 0, 0, 0]));
    assert_when_ov1_was_0(SUB, 0xFFFF, 0x7FFF, 0, state(0x8000, [1, 1, 0, 0, 0, 0]));
    assert_when_ov1_was_0(SUB, 0x7FFF, 0x8000, 0, state(0xFFFF, [1, 1, 1, 0, 1, 1]));
    assert_when_ov1_was_0(SUB, 0x8000, 0x7FFF, 0, state(0x0001, [0, 0, 0, 0, 1, 1]));
    assert_when_ov1_was_0(SUB, 0xFFFF, 0xFFFF, 0, state(0x0000, [0, 0, 0, 1, 0, 0]));
}

#[test]
fn add_and_its_flags_at_the_boundaries() {
    assert_when_ov1_was_0(ADD, 0x0000, 0x0000, 0, state(0x0000, [0, 0, 0, 1, 0, 0]));
    assert_when_ov1_was_0(ADD, 0x1200, 0x0034, 0, state(0x1234, [0, 0, 0, 0, 0, 0]));
    assert_when_ov1_was_0(ADD, 0xFFFF, 0x0001, 0, state(0x0000, [0, 0, 1, 1, 0, 0]));
    assert_when_ov1_was_0(ADD, 0xFFFE, 0x0001, 0, state(0xFFFF, [1, 1, 0, 0, 0, 0]));
    assert_when_ov1_was_0(ADD, 0x7FFF, 0x0001, 0, state(0x8000, [1, 1, 0, 0, 1, 1]));
    assert_when_ov1_was_0(ADD, 0x7FFE, 0x0001, 0, state(0x7FFF, [0, 0, 0, 0, 0, 0]));
    assert_when_ov1_was_0(ADD, 0x8000, 0xFFFF, 0, state(0x7FFF, [0, 0, 1, 0, 1, 1]));
    assert_when_ov1_was_0(ADD, 0x8001, 0xFFFF, 0, state(0x8000, [1, 1, 1, 0, 0, 0]));
    assert_when_ov1_was_0(ADD, 0x8000, 0x0000, 0, state(0x8000, [1, 1, 0, 0, 0, 0]));
    assert_when_ov1_was_0(ADD, 0xFFFF, 0xFFFF, 0, state(0xFFFE, [1, 1, 1, 0, 0, 0]));
    assert_when_ov1_was_0(ADD, 0x8000, 0x7FFF, 0, state(0xFFFF, [1, 1, 0, 0, 0, 0]));
    assert_when_ov1_was_0(ADD, 0x8001, 0x7FFF, 0, state(0x0000, [0, 0, 1, 1, 0, 0]));
}

#[test]
fn sbb_takes_the_other_accumulators_carry_away_as_well() {
    assert_when_ov1_was_0(SBB, 0x0000, 0x0000, 1, state(0xFFFF, [1, 1, 1, 0, 0, 0]));
    assert_when_ov1_was_0(SBB, 0x0001, 0x0000, 1, state(0x0000, [0, 0, 0, 1, 0, 0]));
    assert_when_ov1_was_0(SBB, 0x0005, 0x0005, 1, state(0xFFFF, [1, 1, 1, 0, 0, 0]));
    assert_when_ov1_was_0(SBB, 0x0005, 0xFFFF, 1, state(0x0005, [0, 0, 1, 0, 0, 0]));
    assert_when_ov1_was_0(SBB, 0x8000, 0x0000, 1, state(0x7FFF, [0, 0, 0, 0, 1, 1]));
    assert_when_ov1_was_0(SBB, 0x7FFF, 0xFFFF, 1, state(0x7FFF, [0, 0, 1, 0, 0, 0]));
    assert_when_ov1_was_0(SBB, 0x0000, 0x8000, 1, state(0x7FFF, [0, 0, 1, 0, 0, 0]));
    assert_when_ov1_was_0(SBB, 0x8000, 0x7FFF, 1, state(0x0000, [0, 0, 0, 1, 1, 1]));
    assert_when_ov1_was_0(SBB, 0xFFFF, 0x7FFF, 1, state(0x7FFF, [0, 0, 0, 0, 1, 1]));
    assert_when_ov1_was_0(SBB, 0x7FFF, 0x8000, 1, state(0xFFFE, [1, 1, 1, 0, 1, 1]));
    assert_when_ov1_was_0(SBB, 0x8000, 0x8000, 1, state(0xFFFF, [1, 1, 1, 0, 0, 0]));
    assert_when_ov1_was_0(SBB, 0xFFFF, 0xFFFF, 1, state(0xFFFF, [1, 1, 1, 0, 0, 0]));
    assert_when_ov1_was_0(SBB, 0x0000, 0xFFFF, 1, state(0x0000, [0, 0, 1, 1, 0, 0]));
}

#[test]
fn adc_brings_the_other_accumulators_carry_in_as_well() {
    assert_when_ov1_was_0(ADC, 0x0000, 0x0000, 1, state(0x0001, [0, 0, 0, 0, 0, 0]));
    assert_when_ov1_was_0(ADC, 0x0000, 0xFFFF, 1, state(0x0000, [0, 0, 1, 1, 0, 0]));
    assert_when_ov1_was_0(ADC, 0x0005, 0xFFFF, 1, state(0x0005, [0, 0, 1, 0, 0, 0]));
    assert_when_ov1_was_0(ADC, 0xFFFF, 0x0005, 1, state(0x0005, [0, 0, 1, 0, 0, 0]));
    assert_when_ov1_was_0(ADC, 0xFFFF, 0xFFFF, 1, state(0xFFFF, [1, 1, 1, 0, 0, 0]));
    assert_when_ov1_was_0(ADC, 0xFFFE, 0x0000, 1, state(0xFFFF, [1, 1, 0, 0, 0, 0]));
    assert_when_ov1_was_0(ADC, 0x7FFF, 0x0000, 1, state(0x8000, [1, 1, 0, 0, 1, 1]));
    assert_when_ov1_was_0(ADC, 0x7FFF, 0x8000, 1, state(0x0000, [0, 0, 1, 1, 0, 0]));
    assert_when_ov1_was_0(ADC, 0x7FFF, 0x7FFF, 1, state(0xFFFF, [1, 1, 0, 0, 1, 1]));
    assert_when_ov1_was_0(ADC, 0x8000, 0xFFFF, 1, state(0x8000, [1, 1, 1, 0, 0, 0]));
    assert_when_ov1_was_0(ADC, 0x8000, 0x8000, 1, state(0x0001, [0, 0, 1, 0, 1, 1]));
    assert_when_ov1_was_0(ADC, 0x8000, 0xFFFE, 1, state(0x7FFF, [0, 0, 1, 0, 1, 1]));
}

#[test]
fn sbb_is_sub_and_adc_is_add_when_the_other_accumulators_carry_is_0() {
    for value in SAMPLES {
        for p in SAMPLES {
            for flags in every_flags() {
                let before = state(value, flags);
                let difference = operate(SUB, before, p, false);
                assert_eq!(operate(SBB, before, p, false), difference);
                let sum = operate(ADD, before, p, false);
                assert_eq!(operate(ADC, before, p, false), sum);
            }
        }
    }
}

#[test]
fn dec_and_its_flags_at_the_boundaries() {
    assert_when_ov1_was_0(DEC, 0x0000, 0, 0, state(0xFFFF, [1, 1, 1, 0, 0, 0]));
    assert_when_ov1_was_0(DEC, 0x0001, 0, 0, state(0x0000, [0, 0, 0, 1, 0, 0]));
    assert_when_ov1_was_0(DEC, 0x7FFF, 0, 0, state(0x7FFE, [0, 0, 0, 0, 0, 0]));
    assert_when_ov1_was_0(DEC, 0x8000, 0, 0, state(0x7FFF, [0, 0, 0, 0, 1, 1]));
    assert_when_ov1_was_0(DEC, 0x8001, 0, 0, state(0x8000, [1, 1, 0, 0, 0, 0]));
    assert_when_ov1_was_0(DEC, 0xFFFF, 0, 0, state(0xFFFE, [1, 1, 0, 0, 0, 0]));
}

#[test]
fn inc_and_its_flags_at_the_boundaries() {
    assert_when_ov1_was_0(INC, 0x0000, 0, 0, state(0x0001, [0, 0, 0, 0, 0, 0]));
    assert_when_ov1_was_0(INC, 0x7FFE, 0, 0, state(0x7FFF, [0, 0, 0, 0, 0, 0]));
    assert_when_ov1_was_0(INC, 0x7FFF, 0, 0, state(0x8000, [1, 1, 0, 0, 1, 1]));
    assert_when_ov1_was_0(INC, 0x8000, 0, 0, state(0x8001, [1, 1, 0, 0, 0, 0]));
    assert_when_ov1_was_0(INC, 0xFFFE, 0, 0, state(0xFFFF, [1, 1, 0, 0, 0, 0]));
    assert_when_ov1_was_0(INC, 0xFFFF, 0, 0, state(0x0000, [0, 0, 1, 1, 0, 0]));
}

#[test]
fn cmp_is_the_ones_complement_with_its_flags() {
    assert_from_every_flags(CMP, 0x0000, 0x1111, 0, state(0xFFFF, [1, 1, 0, 0, 0, 0]));
    assert_from_every_flags(CMP, 0xFFFF, 0x1111, 1, state(0x0000, [0, 0, 0, 1, 0, 0]));
    assert_from_every_flags(CMP, 0x1234, 0x1111, 1, state(0xEDCB, [1, 1, 0, 0, 0, 0]));
    assert_from_every_flags(CMP, 0x8000, 0x1111, 0, state(0x7FFF, [0, 0, 0, 0, 0, 0]));
    assert_from_every_flags(CMP, 0x7FFF, 0x1111, 0, state(0x8000, [1, 1, 0, 0, 0, 0]));
}

#[test]
fn shr1_keeps_the_sign_and_puts_the_bit_shifted_out_into_c() {
    assert_from_every_flags(SHR1, 0x0000, 0, 1, state(0x0000, [0, 0, 0, 1, 0, 0]));
    assert_from_every_flags(SHR1, 0x0001, 0, 1, state(0x0000, [0, 0, 1, 1, 0, 0]));
    assert_from_every_flags(SHR1, 0x0002, 0, 1, state(0x0001, [0, 0, 0, 0, 0, 0]));
    assert_from_every_flags(SHR1, 0x7FFF, 0, 1, state(0x3FFF, [0, 0, 1, 0, 0, 0]));
    assert_from_every_flags(SHR1, 0x8000, 0, 0, state(0xC000, [1, 1, 0, 0, 0, 0]));
    assert_from_every_flags(SHR1, 0xFFFE, 0, 0, state(0xFFFF, [1, 1, 0, 0, 0, 0]));
    assert_from_every_flags(SHR1, 0xFFFF, 0, 0, state(0xFFFF, [1, 1, 1, 0, 0, 0]));
}

#[test]
fn shl1_brings_in_the_other_accumulators_carry_and_puts_the_top_bit_into_c() {
    assert_from_every_flags(SHL1, 0x0000, 0, 0, state(0x0000, [0, 0, 0, 1, 0, 0]));
    assert_from_every_flags(SHL1, 0x0000, 0, 1, state(0x0001, [0, 0, 0, 0, 0, 0]));
    assert_from_every_flags(SHL1, 0x8000, 0, 0, state(0x0000, [0, 0, 1, 1, 0, 0]));
    assert_from_every_flags(SHL1, 0x8000, 0, 1, state(0x0001, [0, 0, 1, 0, 0, 0]));
    assert_from_every_flags(SHL1, 0x4000, 0, 0, state(0x8000, [1, 1, 0, 0, 0, 0]));
    assert_from_every_flags(SHL1, 0xC000, 0, 0, state(0x8000, [1, 1, 1, 0, 0, 0]));
    assert_from_every_flags(SHL1, 0x7FFF, 0, 1, state(0xFFFF, [1, 1, 0, 0, 0, 0]));
    assert_from_every_flags(SHL1, 0xFFFF, 0, 0, state(0xFFFE, [1, 1, 1, 0, 0, 0]));
    assert_from_every_flags(SHL1, 0xFFFF, 0, 1, state(0xFFFF, [1, 1, 1, 0, 0, 0]));
}

#[test]
fn shl2_brings_in_two_ones_and_leaves_c_0() {
    assert_from_every_flags(SHL2, 0x0000, 0, 0, state(0x0003, [0, 0, 0, 0, 0, 0]));
    assert_from_every_flags(SHL2, 0x1234, 0, 1, state(0x48D3, [0, 0, 0, 0, 0, 0]));
    assert_from_every_flags(SHL2, 0x2000, 0, 0, state(0x8003, [1, 1, 0, 0, 0, 0]));
    assert_from_every_flags(SHL2, 0x4000, 0, 1, state(0x0003, [0, 0, 0, 0, 0, 0]));
    assert_from_every_flags(SHL2, 0x8000, 0, 1, state(0x0003, [0, 0, 0, 0, 0, 0]));
    assert_from_every_flags(SHL2, 0xFFFF, 0, 0, state(0xFFFF, [1, 1, 0, 0, 0, 0]));
}

#[test]
fn shl4_brings_in_four_ones_and_leaves_c_0() {
    assert_from_every_flags(SHL4, 0x0000, 0, 0, state(0x000F, [0, 0, 0, 0, 0, 0]));
    assert_from_every_flags(SHL4, 0x1234, 0, 1, state(0x234F, [0, 0, 0, 0, 0, 0]));
    assert_from_every_flags(SHL4, 0x0800, 0, 0, state(0x800F, [1, 1, 0, 0, 0, 0]));
    assert_from_every_flags(SHL4, 0x1000, 0, 1, state(0x000F, [0, 0, 0, 0, 0, 0]));
    assert_from_every_flags(SHL4, 0xF000, 0, 1, state(0x000F, [0, 0, 0, 0, 0, 0]));
    assert_from_every_flags(SHL4, 0xFFFF, 0, 0, state(0xFFFF, [1, 1, 0, 0, 0, 0]));
}

#[test]
fn xchg_exchanges_the_two_bytes_with_its_flags() {
    assert_from_every_flags(XCHG, 0x1234, 0, 0, state(0x3412, [0, 0, 0, 0, 0, 0]));
    assert_from_every_flags(XCHG, 0x0000, 0, 1, state(0x0000, [0, 0, 0, 1, 0, 0]));
    assert_from_every_flags(XCHG, 0x0080, 0, 1, state(0x8000, [1, 1, 0, 0, 0, 0]));
    assert_from_every_flags(XCHG, 0x8000, 0, 0, state(0x0080, [0, 0, 0, 0, 0, 0]));
    assert_from_every_flags(XCHG, 0x00FF, 0, 1, state(0xFF00, [1, 1, 0, 0, 0, 0]));
    assert_from_every_flags(XCHG, 0xFFFF, 0, 0, state(0xFFFF, [1, 1, 0, 0, 0, 0]));
}

#[test]
fn s0_is_the_top_bit_and_z_is_zero_for_every_operation_but_none() {
    for code in OR..=XCHG {
        for value in 0..=0xFFFF {
            for other_c in [0, 1] {
                let after = fresh(code, value, 0x8001, other_c);
                assert_eq!(after.s0, (after.value & 0x8000) != 0);
                assert_eq!(after.z, after.value == 0x0000);
            }
        }
    }
}

#[test]
fn inverse_operations_give_every_value_back() {
    for value in 0..=0xFFFF {
        assert_eq!(operate(DEC, fresh(INC, value, 0, 0), 0, false).value, value);
        assert_eq!(operate(INC, fresh(DEC, value, 0, 0), 0, false).value, value);
        assert_eq!(operate(CMP, fresh(CMP, value, 0, 0), 0, false).value, value);
        let exchanged = fresh(XCHG, value, 0, 0);
        assert_eq!(operate(XCHG, exchanged, 0, false).value, value);
        for p in SAMPLES {
            assert_eq!(operate(XOR, fresh(XOR, value, p, 0), p, false).value, value);
            assert_eq!(operate(SUB, fresh(ADD, value, p, 0), p, false).value, value);
            assert_eq!(operate(SBB, fresh(ADC, value, p, 1), p, true).value, value);
        }
    }
}
