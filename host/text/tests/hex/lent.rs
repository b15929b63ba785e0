//! Images lent to a load, every cell marked before it.

use text::{load_data, load_program, Outcome};

const WORD: u32 = 0xA5A5_5A5A;
const CELL: u16 = 0xA55A;

/// The program of a text that must be accepted.
pub fn program(text: &[u8]) -> Vec<u32> {
    let (outcome, image) = try_program(text);
    assert_eq!(outcome.number, 0, "refused in line {}", outcome.line);
    image
}

/// The data ROM of a text that must be accepted.
pub fn data(text: &[u8]) -> Vec<u16> {
    let (outcome, image) = try_data(text);
    assert_eq!(outcome.number, 0, "refused in line {}", outcome.line);
    image
}

/// The number and the line, where "a refused call writes none".
pub fn program_outcome(text: &[u8]) -> (u8, usize) {
    let (outcome, image) = try_program(text);
    assert!(outcome.number == 0 || image == [WORD; 512], "a refused image is touched");
    (outcome.number, outcome.line)
}

/// The number and the line, where "a refused call writes none".
pub fn data_outcome(text: &[u8]) -> (u8, usize) {
    let (outcome, image) = try_data(text);
    assert!(outcome.number == 0 || image == [CELL; 512], "a refused image is touched");
    (outcome.number, outcome.line)
}

fn try_program(text: &[u8]) -> (Outcome, Vec<u32>) {
    let mut image = vec![WORD; 512];
    (load_program(text, &mut image), image)
}

fn try_data(text: &[u8]) -> (Outcome, Vec<u16>) {
    let mut image = vec![CELL; 512];
    (load_data(text, &mut image), image)
}
