//! The mixing loop for 20 million words: its state is known from other emulators of the chip.

use emulator::Chip;
use speed::programs::{mixing_loop, MIXED_20_MILLION};

const WORDS: u32 = 20_000_000;
const CALL: u32 = 65535;

pub fn compare() -> Result<u64, String> {
    let mut program = mixing_loop(Chip::Upd77p20);
    let mut r = bemulatsho::fresh_registers();
    let mut left = WORDS;
    while left > 0 {
        let words = left.min(CALL);
        let reply = bemulatsho::event(&mut r, &program.words, &program.rom, &mut program.ram, 0, words);
        if reply.number != 0 || u32::from(reply.words) != words {
            return Err(format!("a run of {words} words of the mixing loop is answered {reply:?}"));
        }
        left -= words;
    }
    let state = [r.pc, r.a, r.b, r.k, r.l, r.dp, r.rp, r.so];
    if state != MIXED_20_MILLION {
        return Err(format!("the mixing loop ends in {state:X?}, not in {MIXED_20_MILLION:X?}"));
    }
    Ok(u64::from(WORDS))
}
