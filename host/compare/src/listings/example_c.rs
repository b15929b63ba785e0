//! Example C: TRFIL, 16 taps of a transversal filter in one row of RAM.

use super::arithmetic::{coefficient, kept, product, signed};
use super::line::{ours, printed, Line};
use super::running::Run;
use crate::chip_values::ChipValues;
use random::Random;

/// The subroutine from address `at` on: both its jumps name addresses, and the manual gives none.
pub const fn trfil(at: u32) -> [Line; 6] {
    [
        printed(1306, 0x0000fb, "TRFIL: OP MOV @KLR,MEM"),
        // All but "ADD PRODUCT TO SUM" and "SAVE DELAYED SAMPLE HERE" is lost: the sum is in A, the sample in B (entry text, next word).
        printed(1307, 0x12802f, "OP MOV @MEM,B ADD ACCA,M"),
        // DPINC is lost; its comment "POINT TO NEXT DELAY TAP" is left.
        printed(1308, 0x0011d2, "OP MOV @B,K RPDEC DPINC"),
        // The fourth word's own address is at + 3, so $+2 is at + 5.
        printed(1310, 0x4b0000 + 0x10 * (at + 5), "JDPL0 $+2"),
        printed(1311, 0x500000 + 0x10 * at, "JMP TRFIL"),
        printed(1312, 0x200200, "OP M1 RET"),
    ]
}

/// The variant with coefficients in RAM: @KLM for @KLR, MOV @B,L for MOV @B,K, and no RPDEC (lines 1316 to 1318).
#[rustfmt::skip] // One word a line.
const fn trfil_from_ram(at: u32) -> [Line; 6] {
    let [_, add, _, skip, again, exit] = trfil(at);
    [
        printed(1316, 0x0000fc, "TRFIL: OP MOV @KLM,MEM"),
        add,
        printed(1318, 0x0010e2, "OP MOV @B,L DPINC"),
        skip,
        again,
        exit,
    ]
}

/// Four words for each tap, the JMP after all but the last, and the RET.
pub const WORDS: u32 = 16 * 4 + 15 + 1;

/// Coefficient times delayed sample over all taps, each product rounded down by itself, added to `start` and kept to 16 bits.
pub fn convolution(start: u16, coefficients: &[i64], samples: &[u16]) -> u16 {
    let newest_first = samples.iter().rev();
    let sum: i64 = coefficients.iter().zip(newest_first).map(|(c, x)| product(*c, signed(*x))).sum();
    kept(signed(start) + sum)
}

/// What the taps hold after a sample: the first tap the newest, and every other one the sample that it is to give next time.
pub fn delayed(taps: usize, samples: &[u16]) -> Vec<u16> {
    let newest_first: Vec<u16> = samples.iter().rev().copied().chain(std::iter::repeat(0)).take(taps - 1).collect();
    [&newest_first[..1], &newest_first].concat()
}

/// Random coefficients from the top of the data ROM down.
pub fn coefficients_in_rom(run: &mut Run, random: &mut Random) -> Vec<i64> {
    run.pair.rom.iter_mut().for_each(|cell| *cell = random.cell());
    run.pair.rom.iter().rev().map(|cell| coefficient(*cell)).collect()
}

fn caller(trfil: [Line; 6]) -> Vec<Line> {
    let mut program = vec![ours(0x540020, "CALLER: CALL TRFIL"), ours(0x500000, "JMP CALLER")];
    program.extend(trfil);
    program
}

/// The entry that the manual asks for: DP and RP at the first tap, the sample there and in B, and a sum so far in A.
fn enter(run: &mut Run, random: &mut Random, sum: u16, sample: u16) {
    run.disturb(random);
    run.pair.registers.dp = 0;
    run.pair.registers.rp = 511;
    run.pair.registers.a = sum;
    run.pair.registers.b = sample;
    run.pair.ram[0] = sample;
}

pub fn sixteen_taps() -> Result<String, String> {
    let mut random = Random::new(0xc);
    let mut run = Run::new("Example C, TRFIL", &caller(trfil(2)))?;
    let coefficients = coefficients_in_rom(&mut run, &mut random);
    let mut samples = Vec::new();
    for number in 0..50 {
        let step = format!("sample {number}");
        let sum = random.word();
        samples.push(random.word());
        enter(&mut run, &mut random, sum, samples[number]);
        let words = run.call(&step)?;
        run.same_words(&step, WORDS, words)?;
        run.same(&step, "sum", convolution(sum, &coefficients[..16], &samples), run.pair.registers.a)?;
        run.same_ram(&step, 0, &delayed(16, &samples))?;
        run.same(&step, "DP and RP", [0x10, 511 - 16], [run.pair.registers.dp, run.pair.registers.rp])?;
    }
    Ok(format!("Example C, TRFIL: 50 samples through 16 taps as a direct convolution, {WORDS} words each"))
}

/// Line 1314: "A 64-tap filter could be done as follows". The label is ours.
const SIXTY_FOUR_TAPS: [Line; 7] = [
    printed(1314, 0x540070, "CALLER: CALL TRFIL"),
    printed(1314, 0x540070, "CALL TRFIL"),
    printed(1314, 0x000400, "OP M2"),
    printed(1314, 0x540070, "CALL TRFIL"),
    printed(1314, 0x540070, "CALL TRFIL"),
    printed(1314, 0x000400, "OP M2"),
    ours(0x500000, "JMP CALLER"),
];

pub fn sixty_four_taps() -> Result<String, String> {
    let mut random = Random::new(0xcc);
    let mut program = SIXTY_FOUR_TAPS.to_vec();
    program.extend(trfil(7));
    let mut run = Run::new("Example C, 64 taps", &program)?;
    let coefficients = coefficients_in_rom(&mut run, &mut random);
    let mut samples = Vec::new();
    for number in 0..80 {
        let step = format!("sample {number}");
        samples.push(random.word());
        enter(&mut run, &mut random, 0, samples[number]);
        let words = run.until(&step, 6)?;
        run.same_words(&step, 4 * (1 + WORDS) + 2, words)?;
        run.same(&step, "sum", convolution(0, &coefficients[..64], &samples), run.pair.registers.a)?;
        run.same_ram(&step, 0, &delayed(64, &samples))?;
        run.same(&step, "DP and RP", [0x00, 511 - 64], [run.pair.registers.dp, run.pair.registers.rp])?;
        run.until(&step, 0)?;
    }
    Ok("Example C, 64 taps by four calls: 80 samples as a direct convolution".to_string())
}

pub fn coefficients_in_ram() -> Result<String, String> {
    let mut random = Random::new(0xccc);
    let mut run = Run::new("Example C, coefficients in RAM", &caller(trfil_from_ram(2)))?;
    run.pair.ram[0x40..0x50].iter_mut().for_each(|cell| *cell = random.word());
    let coefficients: Vec<i64> = run.pair.ram[0x40..0x50].iter().map(|cell| signed(*cell)).collect();
    let mut samples = Vec::new();
    for number in 0..50 {
        let step = format!("sample {number}");
        samples.push(random.word());
        enter(&mut run, &mut random, 0, samples[number]);
        let words = run.call(&step)?;
        run.same_words(&step, WORDS, words)?;
        run.same(&step, "sum", convolution(0, &coefficients, &samples), run.pair.registers.a)?;
        run.same_ram(&step, 0, &delayed(16, &samples))?;
        run.same(&step, "DP and RP", [0x10, 511], [run.pair.registers.dp, run.pair.registers.rp])?;
    }
    Ok("Example C, TRFIL with @KLM: 50 samples through 16 taps, the coefficients 40H above them in RAM".to_string())
}
