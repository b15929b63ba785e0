//! Appendix 2: sums that overflow on the way. It has no listing: the words are ours, the numbers are the manual's.

use super::arithmetic::{fits, kept, saturated, signed};
use super::line::{ours, Line};
use super::running::{Run, RESET, RUN};
use emulator::{Flags, Registers};
use random::Random;

/// The sum of RAM cells 0 to 3, then saturated as in Example A.
const SUM_IN_A: [Line; 6] = [
    ours(0x0010f1, "OP MOV @A,MEM DPINC"),
    ours(0x029000, "OP ADD ACCA,RAM DPINC"),
    ours(0x029000, "OP ADD ACCA,RAM DPINC"),
    ours(0x029000, "OP ADD ACCA,RAM DPINC"),
    ours(0x498060, "JNOVA1 $+2"),
    ours(0x000071, "OP MOV @A,SGN"),
];

/// The sum of RAM cells 0 to 4, one more than the flags are good for.
const SUM_IN_B: [Line; 5] = [
    ours(0x0010f2, "OP MOV @B,MEM DPINC"),
    ours(0x02d000, "OP ADD ACCB,RAM DPINC"),
    ours(0x02d000, "OP ADD ACCB,RAM DPINC"),
    ours(0x02d000, "OP ADD ACCB,RAM DPINC"),
    ours(0x02d000, "OP ADD ACCB,RAM DPINC"),
];

/// Where SUM_IN_A ends.
const END: u16 = 6;

/// What the manual says of a sum: its bits, then OV0, OV1, S0 and S1.
type Sum = (u16, bool, bool, bool, bool);

/// Lines 1468 to 1491: the first addition overflows, the second crosses back.
const FIRST_ORDER: ([u16; 5], &[Sum]) =
    ([0x5555, 0x5555, 0xaaab, 0, 0], &[(0xaaaa, true, true, true, true), (0x5555, true, false, false, true)]);

/// Line 1479: "the order of operation could be reversed".
const OTHER_ORDER: ([u16; 5], &[Sum]) =
    ([0x5555, 0xaaab, 0x5555, 0, 0], &[(0x0000, false, false, false, false), (0x5555, false, false, false, false)]);

/// Line 1493 tells it in words and 01 in numbers: the sum is 98301, yet OV1 ends at 0.
const FOUR_OPERATIONS: ([u16; 5], &[Sum]) = (
    [0x7fff, 0x7fff, 0x7fff, 0x7fff, 0x8001],
    &[
        (0xfffe, true, true, true, true),
        (0x7ffd, false, true, false, true),
        (0xfffc, true, true, true, true),
        (0x7ffd, true, false, false, true),
    ],
);

pub fn sums() -> Result<String, String> {
    let mut random = Random::new(0x22);
    for (numbers, expected) in [FIRST_ORDER, OTHER_ORDER, FOUR_OPERATIONS] {
        let in_a = expected.len().min(3);
        let mut run = Run::new("Appendix 2, sums in A", &SUM_IN_A)?;
        start(&mut run, &mut random, &numbers);
        one_at_a_time(run, &expected[..in_a], |registers| (registers.a, registers.flags_a))?;
        let mut run = Run::new("Appendix 2, sums in B", &SUM_IN_B)?;
        start(&mut run, &mut random, &numbers);
        one_at_a_time(run, expected, |registers| (registers.b, registers.flags_b))?;
    }
    Ok("Appendix 2: 5555H + 5555H + AAABH in both orders and the four operations that hide an overflow, flags as told".to_string())
}

/// OV1 begins at 0, as the manual assumes, and DP at the first number.
fn start(run: &mut Run, random: &mut Random, numbers: &[u16]) {
    run.pair.ram[..numbers.len()].copy_from_slice(numbers);
    run.disturb(random);
    run.pair.registers.dp = 0;
    run.pair.registers.flags_a.ov1 = false;
    run.pair.registers.flags_b.ov1 = false;
}

fn one_at_a_time(mut run: Run, expected: &[Sum], accumulator: fn(Registers) -> (u16, Flags)) -> Result<(), String> {
    run.event("the first number", RUN, 1)?;
    for (number, sum) in expected.iter().enumerate() {
        let step = format!("operation {} on {:04X?}", number + 1, &run.pair.ram[..5]);
        run.event(&step, RUN, 1)?;
        let (value, flags) = accumulator(run.pair.registers);
        run.same(&step, "sum, OV0, OV1, S0, S1", *sum, (value, flags.ov0, flags.ov1, flags.s0, flags.s1))?;
    }
    Ok(())
}

/// "It is possible to do three consecutive operations before checking for overflows": OV1 tells of the whole sum, SGN of its side.
pub fn three_operations() -> Result<String, String> {
    let mut random = Random::new(0x2);
    let mut run = Run::new("Appendix 2, three operations", &SUM_IN_A)?;
    for number in 0..2000 {
        let step = format!("sum {number}");
        let numbers = [(); 4].map(|()| random.word());
        run.event(&step, RESET, 0)?;
        start(&mut run, &mut random, &numbers);
        run.until(&step, END)?;
        let sum: i64 = numbers.into_iter().map(signed).sum();
        run.same(&step, "OV1", !fits(sum), run.pair.registers.flags_a.ov1)?;
        run.same(&step, "saturated sum", kept(saturated(sum)), run.pair.registers.a)?;
    }
    Ok("Appendix 2: 2000 sums of three operations, OV1 and SGN as the exact sum asks".to_string())
}
