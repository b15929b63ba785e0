//! A record as a line of text.

use random::Random;

#[derive(Clone, Debug)]
pub struct Record {
    pub kind: u8,
    pub address: u16,
    pub data: Vec<u8>,
}

/// How a text is written.
#[derive(Clone, Copy)]
pub struct Style {
    pub letters: Letters,
    pub endings: Endings,
}

#[derive(Clone, Copy)]
pub enum Letters {
    Capital,
    Small,
    Mixed,
}

#[derive(Clone, Copy)]
pub enum Endings {
    LineFeed,
    Both,
    Mixed,
}

impl Style {
    /// What the writer of presets has.
    pub const WRITTEN: Style = Style { letters: Letters::Capital, endings: Endings::LineFeed };

    pub fn any(random: &mut Random) -> Style {
        Style {
            letters: random.pick(&[Letters::Capital, Letters::Small, Letters::Mixed]),
            endings: random.pick(&[Endings::LineFeed, Endings::Both, Endings::Mixed]),
        }
    }
}

impl Record {
    /// The line of this record, with its check byte, or one that is so much higher.
    pub fn line(&self, random: &mut Random, style: Style, check_off: u8) -> Vec<u8> {
        let mut bytes = vec![self.data.len() as u8, (self.address >> 8) as u8, self.address as u8, self.kind];
        bytes.extend_from_slice(&self.data);
        let sum = bytes.iter().fold(0u8, |sum, byte| sum.wrapping_add(*byte));
        bytes.push(sum.wrapping_neg().wrapping_add(check_off));
        let mut line = vec![b':'];
        for byte in bytes {
            for digit in [byte >> 4, byte & 15] {
                line.push(character(random, style.letters, digit));
            }
        }
        line.extend_from_slice(ending(random, style.endings));
        line
    }
}

fn character(random: &mut Random, letters: Letters, digit: u8) -> u8 {
    let small = match letters {
        Letters::Capital => false,
        Letters::Small => true,
        Letters::Mixed => random.flag(),
    };
    match (digit, small) {
        (0..=9, _) => b'0' + digit,
        (_, false) => b'A' + digit - 10,
        (_, true) => b'a' + digit - 10,
    }
}

fn ending(random: &mut Random, endings: Endings) -> &'static [u8] {
    let long = match endings {
        Endings::LineFeed => false,
        Endings::Both => true,
        Endings::Mixed => random.flag(),
    };
    if long {
        b"\r\n"
    } else {
        b"\n"
    }
}
