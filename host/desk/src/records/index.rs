//! The patterns of turns by their indexes, each in the fewest bits: of 2^k patterns k bits each, of a number between the powers k bits for
//! the first ones and k + 1 for the others.

use super::cursor::{Cursor, Wrong};

struct Packing {
    /// The bits of a short index.
    bits: u32,
    /// How many indexes are short; the others have one bit more.
    short: u32,
}

impl Packing {
    fn of(patterns: usize) -> Packing {
        let bits = patterns.max(1).ilog2();
        Packing { bits, short: (2 << bits) - patterns as u32 }
    }

    /// The bits of an index, the first one lowest, and how many.
    #[inline]
    fn code(&self, index: u32) -> (u32, u32) {
        if index < self.short {
            return (index, self.bits);
        }
        let long = index + self.short;
        ((long >> 1) | ((long & 1) << self.bits), self.bits + 1)
    }
}

/// Appends indexes; a byte is filled from its lowest bit on, and the last one with 0.
pub fn pack(indexes: impl Iterator<Item = u32>, patterns: usize, bytes: &mut Vec<u8>) {
    let packing = Packing::of(patterns);
    let (mut held, mut count) = (0u32, 0);
    for index in indexes {
        let (code, bits) = packing.code(index);
        held |= code << count;
        count += bits;
        while count >= 8 {
            bytes.push(held as u8);
            held >>= 8;
            count -= 8;
        }
    }
    if count > 0 {
        bytes.push(held as u8);
    }
}

/// Bits that are taken from bytes, the lowest first.
struct Bits<'a, 'b> {
    bytes: &'a mut Cursor<'b>,
    held: u32,
    count: u32,
}

impl Bits<'_, '_> {
    #[inline]
    fn take(&mut self, bits: u32) -> Result<u32, Wrong> {
        while self.count < bits {
            self.held |= u32::from(self.bytes.byte()?) << self.count;
            self.count += 8;
        }
        let taken = self.held & ((1 << bits) - 1);
        self.held >>= bits;
        self.count -= bits;
        Ok(taken)
    }
}

/// Appends so many indexes of so many patterns.
pub fn unpack(bytes: &mut Cursor, turns: usize, patterns: usize, indexes: &mut Vec<u16>) -> Result<(), Wrong> {
    let packing = Packing::of(patterns);
    let mut bits = Bits { bytes, held: 0, count: 0 };
    for _ in 0..turns {
        let first = bits.take(packing.bits)?;
        let index = if first < packing.short { first } else { 2 * first + bits.take(1)? - packing.short };
        indexes.push(index as u16);
    }
    match bits.held {
        0 => Ok(()),
        left => Err(format!("the bits {left:02X}H behind the last index: expected 0")),
    }
}

#[cfg(test)]
mod tests {
    use super::*;

    #[test]
    fn indexes_come_back() {
        for patterns in (1..300).chain([511, 512, 513, 32767, 32768]) {
            let indexes: Vec<u16> = (0..1000).map(|turn| (turn * 7919 % patterns) as u16).collect();
            let mut bytes = Vec::new();
            pack(indexes.iter().map(|index| u32::from(*index)), patterns, &mut bytes);
            let (mut cursor, mut read) = (Cursor::new(&bytes), Vec::new());
            unpack(&mut cursor, indexes.len(), patterns, &mut read).unwrap();
            assert_eq!((read, cursor.left()), (indexes, 0), "{patterns} patterns");
        }
    }

    #[test]
    fn every_code_is_an_index() {
        for patterns in 1..300 {
            let bytes: Vec<u8> = (0..200u32).map(|n| (n * n * 31 / 8) as u8).chain([0; 4]).collect();
            let mut read = Vec::new();
            // The bits that are left may be anything here.
            let _ = unpack(&mut Cursor::new(&bytes), 160, patterns, &mut read);
            assert!(read.len() == 160 && read.iter().all(|index| usize::from(*index) < patterns), "{patterns} patterns");
        }
    }

    #[test]
    fn they_take_the_fewest_bits() {
        let bytes = |patterns, index: u32| {
            let mut bytes = Vec::new();
            pack((0..800).map(|_| index), patterns, &mut bytes);
            bytes.len()
        };
        assert_eq!((bytes(1, 0), bytes(2, 1), bytes(3, 0), bytes(3, 2)), (0, 100, 100, 200));
        assert_eq!((bytes(30, 1), bytes(30, 2), bytes(32, 31), bytes(36, 27), bytes(36, 28)), (400, 500, 500, 500, 600));
    }

    #[test]
    fn bits_behind_the_last_index_are_refused() {
        let mut read = Vec::new();
        assert!(unpack(&mut Cursor::new(&[0b0000_0101]), 3, 2, &mut read).is_ok());
        assert!(unpack(&mut Cursor::new(&[0b0000_1101]), 3, 2, &mut read).is_err());
    }
}
