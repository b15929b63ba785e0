//! Appendix 3 and 3.11: M and N as one product of 32 bits. No listing: the words are ours, the numbers are the manual's.

use super::arithmetic::signed;
use super::line::{ours, Line};
use super::running::{Run, RUN};
use random::Random;

/// The product of RAM cells 0 and 1, added to A and B.
const PRODUCT: [Line; 4] = [
    ours(0x0010fa, "OP MOV @K,MEM DPINC"),
    ours(0x0000fd, "OP MOV @L,MEM"),
    ours(0x128000, "OP ADD ACCA,M"),
    ours(0x1ac000, "OP ADD ACCB,N"),
];

/// 3.11 (line 363) and Appendix 3 (line 1510).
const PUBLISHED: [(u16, u16, u32); 3] = [(0x8000, 0x8000, 0x8000_0000), (0x0001, 0x0001, 0x0000_0002), (0x4000, 0x4000, 0x2000_0000)];

pub fn products() -> Result<String, String> {
    let mut random = Random::new(0x3);
    for (k, l, expected) in PUBLISHED {
        product(&mut random, k, l, expected)?;
    }
    for _ in 0..2000 {
        let (k, l) = (random.word(), random.word());
        // "Left-justified in a 31 bit field" above a 0: twice the product of the whole numbers.
        product(&mut random, k, l, (2 * signed(k) * signed(l)) as u32)?;
    }
    Ok("Appendix 3 and 3.11: three published products and 2000 others, M and N as one number".to_string())
}

fn product(random: &mut Random, k: u16, l: u16, expected: u32) -> Result<(), String> {
    let step = format!("{k:04X}H times {l:04X}H");
    let mut run = Run::new("Appendix 3, products", &PRODUCT)?;
    run.disturb(random);
    run.pair.registers.dp = 0;
    run.pair.ram[..2].copy_from_slice(&[k, l]);
    let before = run.pair.registers;
    run.event(&step, RUN, 4)?;
    let m = run.pair.registers.a.wrapping_sub(before.a);
    let n = run.pair.registers.b.wrapping_sub(before.b);
    run.same(&step, "product", expected, u32::from(m) * 0x10000 + u32::from(n))
}
