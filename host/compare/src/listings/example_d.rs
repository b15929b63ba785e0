//! Example D: a scaled sample through 32 taps, by two calls of Example C's TRFIL.

use super::arithmetic::{kept, product, signed};
use super::example_c::{coefficients_in_rom, convolution, delayed, trfil, WORDS};
use super::line::{ours, printed, Line};
use super::running::Run;
use random::Random;

const END: u16 = 7;

/// The label and the jump back at END are ours: the manual's section goes on into a program that it does not show.
const SECTION: [Line; 8] = [
    printed(1325, 0x603fe5, "SECTION: LDI @RP,1FFH"),
    printed(1329, 0x09811b, "OP MOV @KLR,A XOR ACCA,IDB RPDEC"),
    printed(1340, 0x09c020, "OP MOV @NON,B XOR ACCB,IDB"),
    printed(1349, 0x12c000, "OP ADD ACCB,M"),
    printed(1351, 0x00002f, "OP MOV @MEM,B"),
    printed(1359, 0x540080, "CALL TRFIL"),
    printed(1362, 0x540080, "CALL TRFIL"),
    ours(0x500000, "JMP SECTION"),
];

pub fn run() -> Result<String, String> {
    let mut random = Random::new(0xd);
    let mut program = SECTION.to_vec();
    program.extend(trfil(8));
    let mut run = Run::new("Example D, 32 taps", &program)?;
    let coefficients = coefficients_in_rom(&mut run, &mut random);
    let (scalar, taps) = (coefficients[0], &coefficients[1..33]);
    let mut scaled = Vec::new();
    for number in 0..60 {
        let step = format!("sample {number}");
        let sample = random.word();
        scaled.push(kept(product(signed(sample), scalar)));
        run.disturb(&mut random);
        run.pair.registers.a = sample;
        run.pair.registers.dp = 0;
        let words = run.until(&step, END)?;
        run.same_words(&step, 5 + 2 * (1 + WORDS), words)?;
        run.same(&step, "output", convolution(0, taps, &scaled), run.pair.registers.a)?;
        run.same_ram(&step, 0, &delayed(32, &scaled))?;
        run.same(&step, "DP and RP", [0, 511 - 33], [run.pair.registers.dp, run.pair.registers.rp])?;
        run.until(&step, 0)?;
    }
    Ok("Example D, 32 taps: 60 samples scaled and filtered as a direct convolution, 167 words each".to_string())
}
