//! Example A: BIQFIL, one second order section. 11 words; "executes in 2.5 usec (2.75 if an overflow occurs)", a word in 250 ns.

use super::arithmetic::{cell, coefficient, fits, kept, product, saturated, signed};
use super::line::{ours, printed, Line};
use super::running::Run;
use crate::chip_values::ChipValues;
use random::Random;

/// The subroutine from address `at` on: the jump in it names an address, and the manual gives none.
pub const fn biqfil(at: u32) -> [Line; 11] {
    [
        printed(1143, 0x09811b, "BIQFIL: OP MOV @KLR,A XOR ACCA,IDB RPDEC"),
        printed(1153, 0x1281fb, "OP MOV @KLR,MEM ADD ACCA,M RPDEC"),
        printed(1164, 0x1282d2, "OP MOV @B,K ADD ACCA,M M1"),
        printed(1177, 0x1281fb, "OP MOV @KLR,MEM ADD ACCA,M RPDEC"),
        printed(1187, 0x12816d, "OP MOV @L,RO ADD ACCA,M RPDEC"),
        // The sixth word's own address is at + 5, so $+2 is at + 7.
        printed(1197, 0x498000 + 0x10 * (at + 7), "JNOVA1 $+2"),
        printed(1201, 0x000071, "OP MOV @A,SGN"),
        printed(1208, 0x128213, "OP MOV @TR,A ADD ACCA,M M1"),
        printed(1216, 0x0001fb, "OP MOV @KLR,MEM RPDEC"),
        printed(1223, 0x12823f, "OP MOV @MEM,TR ADD ACCA,M M1"),
        printed(1236, 0x32822f, "OP MOV @MEM,B ADD ACCA,M M1 RET"),
    ]
}

/// A section in whole numbers: five data ROM cells in the order of use, and the delay taps W(I-1) and W(I-2).
#[derive(Clone, Copy)]
pub struct Section {
    pub cells: [u16; 5],
    pub w1: i64,
    pub w2: i64,
}

/// What a section gives: the output before it is kept to 16 bits, and whether the sum W(I) had to be saturated.
pub struct Output {
    pub y: i64,
    pub overflow: bool,
}

impl Section {
    pub fn new(cells: [u16; 5]) -> Section {
        Section { cells, w1: 0, w2: 0 }
    }

    /// W = x AN0 + 2 W1 BN1 + W2 BN2, saturated; y = W + W2 AN2 + 2 W1 AN1. Each product is rounded down by itself.
    pub fn filter(&mut self, x: i64) -> Output {
        let [an0, bn1, bn2, an2, an1] = self.cells.map(coefficient);
        let sum = product(x, an0) + 2 * product(self.w1, bn1) + product(self.w2, bn2);
        let w = saturated(sum);
        let y = w + product(self.w2, an2) + 2 * product(self.w1, an1);
        (self.w1, self.w2) = (w, self.w1);
        Output { y, overflow: !fits(sum) }
    }
}

/// One section at column 0 of rows 0 and 1, its coefficients from the top of the data ROM down.
struct Filter {
    run: Run,
    section: Section,
    random: Random,
}

impl Filter {
    fn new(cells: [u16; 5]) -> Result<Filter, String> {
        let mut program = vec![ours(0x540020, "CALLER: CALL BIQFIL"), ours(0x500000, "JMP CALLER")];
        program.extend(biqfil(2));
        let mut run = Run::new("Example A, biquad", &program)?;
        run.pair.rom[507..].copy_from_slice(&cells);
        run.pair.rom[507..].reverse();
        Ok(Filter { run, section: Section::new(cells), random: Random::new(0xa1) })
    }

    /// One sample through both; checks the output, the words, the delay taps and the pointers.
    fn filter(&mut self, step: &str, x: i64) -> Result<Output, String> {
        let Filter { run, section, random } = self;
        run.disturb(random);
        run.pair.registers.a = kept(x);
        run.pair.registers.dp = 0;
        run.pair.registers.rp = 511;
        let words = run.call(step)?;
        let output = section.filter(x);
        run.same(step, "output", kept(output.y), run.pair.registers.a)?;
        run.same_words(step, if output.overflow { 11 } else { 10 }, words)?;
        run.same(step, "delay taps", [kept(section.w1), kept(section.w2)], [run.pair.ram[0x00], run.pair.ram[0x10]])?;
        run.same(step, "DP and RP", [0, 506], [run.pair.registers.dp, run.pair.registers.rp])?;
        Ok(output)
    }
}

/// AN0 = 1/2, BN1 = 1/4, BN2 = -1/4, AN2 = 1/2, AN1 = 1/4.
fn gentle() -> [u16; 5] {
    [2048, 1024, -1024, 2048, 1024].map(cell)
}

pub fn run() -> Result<String, String> {
    impulse()?;
    in_range()?;
    let (samples, overflows) = any_size()?;
    if overflows == 0 || overflows == samples {
        return Err(format!("Example A, biquad, any size: expected some samples to overflow, found {overflows} of {samples}"));
    }
    Ok(format!(
        "Example A, biquad: 10 samples as H(Z) gives them and 400 as the formula rounds them, 10 words each; \
         of {samples} of any size {overflows} overflow, saturate and take 11 words"
    ))
}

/// An impulse through H(Z) itself. The code adds BN1 and BN2, so here 4 y = 2 x + x1 + x2 + 2 y1 - y2, with nothing to round.
fn impulse() -> Result<(), String> {
    let mut filter = Filter::new(gentle())?;
    let (mut x1, mut x2, mut y1, mut y2) = (0, 0, 0, 0);
    for sample in 0..10 {
        let x = if sample == 0 { 0x4000 } else { 0 };
        let four_y = 2 * x + x1 + x2 + 2 * y1 - y2;
        let step = format!("impulse, sample {sample}");
        let output = filter.filter(&step, x)?;
        filter.run.same(&step, "four times the output", four_y, 4 * output.y)?;
        (x1, x2, y1, y2) = (x, x1, four_y / 4, y1);
    }
    Ok(())
}

/// Random samples that stay in range: no overflow, and an output that needs no more than 16 bits.
fn in_range() -> Result<(), String> {
    let mut random = Random::new(0xa);
    let mut filter = Filter::new(gentle())?;
    for sample in 0..400 {
        let step = format!("in range, sample {sample}");
        let output = filter.filter(&step, random.within(0x2000))?;
        filter.run.same(&step, "overflow", false, output.overflow || !fits(output.y))?;
    }
    Ok(())
}

/// Random coefficients and samples of any size. The output wraps: the manual saturates W alone.
fn any_size() -> Result<(u32, u32), String> {
    let mut random = Random::new(0xaa);
    let (mut samples, mut overflows) = (0, 0);
    for set in 0..10 {
        let mut filter = Filter::new([(); 5].map(|()| random.cell()))?;
        filter.random = Random::new(set);
        for sample in 0..100 {
            let step = format!("any size, coefficients {set}, sample {sample}");
            let output = filter.filter(&step, signed(random.word()))?;
            samples += 1;
            overflows += u32::from(output.overflow);
        }
    }
    Ok((samples, overflows))
}
