//! A RAM lent to a load, every cell marked before it, and the bytes of a RAM.

use random::Random;
use text::{load_preset, Outcome};

const CELL: u16 = 0xA55A;

/// The cells of a text that must be accepted.
pub fn loaded(text: &[u8]) -> Vec<u16> {
    let (outcome, ram) = try_load(text);
    assert_eq!(outcome.number, 0, "refused in line {}", outcome.line);
    ram
}

/// The number and the line, where a refused load leaves a RAM that "keeps every cell".
pub fn outcome(text: &[u8]) -> (u8, usize) {
    let (outcome, ram) = try_load(text);
    assert!(outcome.number == 0 || ram == [CELL; 128], "a refused RAM is touched");
    (outcome.number, outcome.line)
}

pub fn any(random: &mut Random) -> Vec<u16> {
    (0..128).map(|_| random.word()).collect()
}

/// "low byte first"
pub fn bytes(ram: &[u16]) -> Vec<u8> {
    ram.iter().flat_map(|cell| [*cell as u8, (*cell >> 8) as u8]).collect()
}

fn try_load(text: &[u8]) -> (Outcome, Vec<u16>) {
    let mut ram = vec![CELL; 128];
    (load_preset(text, &mut ram), ram)
}
