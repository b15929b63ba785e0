//! Example F: CRUNCH, 32-bit sums in both accumulators: twice the first number, plus the second, less the third.

use super::line::{ours, printed, Line};
use super::running::Run;
use random::Random;

pub const fn crunch() -> [Line; 10] {
    [
        printed(1451, 0x0910f2, "CRUNCH: OP MOV @B,MEM AND ACCA,IDB DPINC"),
        printed(1452, 0x0010f1, "OP MOV @A,MEM DPINC"),
        printed(1453, 0x064000, "OP SHL1 ACCB"),
        printed(1454, 0x060000, "OP SHL1 ACCA"),
        printed(1455, 0x02d000, "OP ADD ACCB,RAM DPINC"),
        // DPINC is lost in this word and the next two; the comments "POINT TO LOW OF THIRD" and so on are left.
        printed(1457, 0x039000, "OP ADC ACCA,RAM DPINC"),
        printed(1458, 0x025000, "OP SUB ACCB,RAM DPINC"),
        printed(1459, 0x031000, "OP SBB ACCA,RAM DPINC"),
        printed(1460, 0x00102f, "OP MOV @MEM,B DPINC"),
        printed(1461, 0x20201f, "OP MOV @MEM,A DPDEC RET"),
    ]
}

/// The same in 32 bits, without overflow processing; each number is stored low word first.
pub fn crunched(words: [u16; 6]) -> u32 {
    let number = |low: usize| u32::from(words[low]) + 0x10000 * u32::from(words[low + 1]);
    number(0).wrapping_mul(2).wrapping_add(number(2)).wrapping_sub(number(4))
}

pub fn run() -> Result<String, String> {
    let mut random = Random::new(0xf);
    let mut program = vec![ours(0x540020, "CALLER: CALL CRUNCH"), ours(0x500000, "JMP CALLER")];
    program.extend(crunch());
    let mut run = Run::new("Example F, CRUNCH", &program)?;
    for number in 0..500 {
        let step = format!("numbers {number}");
        let words = [(); 6].map(|()| random.word());
        run.pair.ram[..6].copy_from_slice(&words);
        run.disturb(&mut random);
        run.pair.registers.dp = 0;
        let count = run.call(&step)?;
        run.same_words(&step, 10, count)?;
        let result = u32::from(run.pair.ram[6]) + 0x10000 * u32::from(run.pair.ram[7]);
        run.same(&step, "result", crunched(words), result)?;
        run.same(&step, "DP", 6, run.pair.registers.dp)?;
    }
    Ok("Example F, CRUNCH: 500 times three numbers as 32-bit arithmetic has it, 10 words each".to_string())
}
