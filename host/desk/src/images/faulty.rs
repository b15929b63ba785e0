//! Words of the 77P20's program that are refused whatever the machine holds: 4, 5 and 18. The number is the proved core's; the word is looked at
//! again only to say which bits are at fault.

use crate::chip::device::Device;
use crate::chip::event::refusal;
use crate::chip::mnemonics::{self, CALL, JUMP, JUMP_ON_CONDITION};
use crate::fault::Fault;
use crate::numbers;
use bemulatsho::{event, fresh_registers, kind, take_apart, Word};
use std::fmt;

/// The chip whose images there are.
const CHIP: Device = Device::Upd77p20;

/// The places of a word's bits: all above D22, and the fields that a word may have to leave 0.
const TOO_WIDE: u32 = 0xff80_0000;
const CND: u32 = 0x3_e000;
const SPARE_OF_JP: u32 = 0xf;
const SPARE_OF_LDI: u32 = 0x10;

#[derive(Clone, Copy, Debug, PartialEq, Eq)]
pub struct Faulty {
    pub address: u16,
    pub word: u32,
    pub number: u8,
}

/// Those of a program that 4, 5 or 18 refuses, by their addresses.
pub fn words(program: &[u32]) -> Result<Vec<Faulty>, Fault> {
    let (rom, mut ram) = ([0; bemulatsho::CELLS], [0; bemulatsho::RAM]);
    let mut faulty = Vec::new();
    for (address, word) in (0..).zip(program) {
        let mut registers = fresh_registers();
        registers.pc = address;
        match event(&mut registers, program, &rom, &mut ram, kind::RUN, 1).number {
            0 | 6..=9 => {}
            number @ (4 | 5 | 18) => faulty.push(Faulty { address, word: *word, number }),
            number => return Err(Fault::bad(format!("word {} was not looked at: {}", numbers::address(address), refusal(CHIP, number)))),
        }
    }
    Ok(faulty)
}

/// Address, word, mnemonics, and why it is refused.
impl fmt::Display for Faulty {
    fn fmt(&self, f: &mut fmt::Formatter) -> fmt::Result {
        let Faulty { address, word, number } = *self;
        write!(f, "{}  {}  {}  {}", numbers::address(address), numbers::word(word), mnemonics::line(CHIP, word), refusal(CHIP, number))?;
        bits_at_fault(word).map_or(Ok(()), |bits| write!(f, ": {bits}"))
    }
}

/// The bits for which 4, 5 or 18 refuses a word, each with its field.
fn bits_at_fault(word: u32) -> Option<String> {
    let set = |field: &str, bits: u32| (word & bits != 0).then(|| format!("{field}{}", places(word & bits)));
    let parts = match take_apart(word) {
        Err(_) => vec![set("", TOO_WIDE)],
        Ok(Word::Op(_) | Word::Rt(_)) => vec![],
        Ok(Word::Ldi(_)) => vec![set("spare ", SPARE_OF_LDI)],
        Ok(Word::Jp(fields)) => match fields.brch {
            JUMP | CALL => vec![set("CND ", CND), set("spare ", SPARE_OF_JP)],
            JUMP_ON_CONDITION => vec![set("spare ", SPARE_OF_JP)],
            brch => vec![Some(format!("BRCH D20-18 is {brch:03b}"))],
        },
    };
    let parts: Vec<String> = parts.into_iter().flatten().collect();
    (!parts.is_empty()).then(|| parts.join("; "))
}

/// The places of the bits that are 1, from the highest down, as `D31-23, D4`.
fn places(bits: u32) -> String {
    let is_set = |place: &u32| bits >> place & 1 == 1;
    let mut runs: Vec<(u32, u32)> = Vec::new();
    for place in (0..32).rev().filter(is_set) {
        match runs.last_mut() {
            Some((_, low)) if *low == place + 1 => *low = place,
            _ => runs.push((place, place)),
        }
    }
    let run = |(high, low): (u32, u32)| if high == low { format!("D{high}") } else { format!("D{high}-{low}") };
    runs.into_iter().map(run).collect::<Vec<String>>().join(", ")
}

#[cfg(test)]
mod tests {
    use super::*;

    fn told(word: u32) -> Vec<String> {
        let mut program = vec![0; bemulatsho::WORDS];
        program[0x1f] = word;
        words(&program).expect("words that were looked at").iter().map(Faulty::to_string).collect()
    }

    #[test]
    fn each_fault_is_told_with_its_bits() {
        for (word, line) in [
            (0x80_0000, "01FH  800000H  [wider than 23 bits: 800000H]  refusal 4, the word at PC is 2^23 or more: D23"),
            (u32::MAX, "01FH  FFFFFFFFH  [wider than 23 bits: FFFFFFFFH]  refusal 4, the word at PC is 2^23 or more: D31-23"),
            (
                0x4c3231,
                "01FH  4C3231H  JP 123H [no such branch 011] [CND 1] [spare 1]  refusal 5, BRCH is none of 010, 100, 101: BRCH D20-18 is 011",
            ),
            (0x501005, "01FH  501005H  JMP 100H [spare 5]  refusal 18, unused bits set: spare D2, D0"),
            (0x51f00f, "01FH  51F00FH  JMP 100H [CND 15] [spare 15]  refusal 18, unused bits set: CND D16-13; spare D3-0"),
            (0x546000, "01FH  546000H  CALL 000H [CND 3]  refusal 18, unused bits set: CND D14-13"),
            (0x4bf00c, "01FH  4BF00CH  JRQM 100H [spare 12]  refusal 18, unused bits set: spare D3-2"),
            (0x624691, "01FH  624691H  LDI @A,1234H [spare 1]  refusal 18, unused bits set: spare D4"),
        ] {
            assert_eq!(told(word), [line]);
        }
    }

    /// 6 to 9 are another matter: no source, RO, RT at depth 0.
    #[test]
    fn words_that_may_run_are_not_told() {
        for word in [0, 0x000001, 0x000060, 0x200000, 0x501000, 0x541000, 0x4bf000, 0x624681, 0x7fffef] {
            assert_eq!(told(word), [""; 0], "{word:06X}H");
        }
    }

    /// Bits are named exactly where the core refuses: every JP word but for NA, every LDI word but for ID, and words of all rows and widths.
    #[test]
    fn bits_are_named_of_every_faulty_word_and_of_no_other() {
        let jp = (0..1 << 12).flat_map(|bits: u32| [0, 0x155].map(|na| 0x40_0000 | bits >> 4 << 13 | na << 4 | bits & 0xf));
        let ldi = (0..1 << 5).flat_map(|bits: u32| [0, 0x5a5a, 0xffff].map(|id| 0x60_0000 | id << 5 | bits));
        let any = (0..1 << 23).step_by(1009).chain((1 << 23..=u32::MAX).step_by(9_999_991));
        let all: Vec<u32> = jp.chain(ldi).chain(any).collect();
        for part in all.chunks(bemulatsho::WORDS) {
            let mut program = part.to_vec();
            program.resize(bemulatsho::WORDS, 0);
            let refused: Vec<u32> = words(&program).expect("words that were looked at").iter().map(|faulty| faulty.word).collect();
            let named: Vec<u32> = program.into_iter().filter(|word| bits_at_fault(*word).is_some()).collect();
            assert_eq!(refused, named);
        }
    }

    #[test]
    fn a_program_of_another_length_is_not_called_good() {
        for length in [1, 511, 513] {
            let fault = words(&vec![0; length]).expect_err("a fault");
            assert_eq!(fault.message, "word 000H was not looked at: refusal 1, a lent image or RAM has the wrong length");
        }
    }

    #[test]
    fn places_run_from_the_highest_down() {
        for (bits, text) in [(1, "D0"), (0b1011, "D3, D1-0"), (0xff80_0010, "D31-23, D4"), (0x8000_0001, "D31, D0")] {
            assert_eq!(places(bits), text);
        }
    }
}
