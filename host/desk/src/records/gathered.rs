//! The turns of a block while it is written: each pattern once, with its number, and the holes.

use super::cursor::put_number;
use super::index;
use super::layout::MOST_TURNS;
use std::cmp::Reverse;
use std::collections::HashMap;
use std::hash::{BuildHasherDefault, Hasher};

/// A block is written when its holes may not have room for another turn, or when its patterns have come to this length.
const HOLES: usize = 1 << 18;
const PATTERNS: usize = 1 << 14;

/// A turn without a `sent` ends at so many statements, or when they have come to this length.
const TURN: usize = 256;
const TURN_LENGTH: usize = 1 << 14;

/// The statements of a turn as a pattern holds them.
#[derive(Default)]
pub struct Turn {
    pub pattern: Vec<u8>,
    pub statements: usize,
}

impl Turn {
    pub fn is_full(&self) -> bool {
        self.statements >= TURN || self.pattern.len() >= TURN_LENGTH
    }
}

pub struct Gathered {
    patterns: HashMap<Box<[u8]>, Pattern, BuildHasherDefault<Quick>>,
    /// The length of all patterns.
    length: usize,
    /// The number of each turn's pattern.
    turns: Vec<u16>,
    pub holes: Vec<u8>,
    pub most_turns: usize,
}

struct Pattern {
    number: u16,
    statements: usize,
    uses: u32,
}

impl Gathered {
    pub fn new() -> Gathered {
        let holes = Vec::with_capacity(HOLES);
        Gathered { patterns: HashMap::default(), length: 0, turns: Vec::new(), holes, most_turns: MOST_TURNS }
    }

    /// Adds a turn whose holes are there already.
    #[inline]
    pub fn add(&mut self, turn: &Turn) {
        let number = match self.patterns.get_mut(turn.pattern.as_slice()) {
            Some(pattern) => {
                pattern.uses += 1;
                pattern.number
            }
            None => self.add_pattern(turn),
        };
        self.turns.push(number);
    }

    fn add_pattern(&mut self, turn: &Turn) -> u16 {
        let number = self.patterns.len() as u16;
        let pattern = Pattern { number, statements: turn.statements, uses: 1 };
        self.patterns.insert(turn.pattern.as_slice().into(), pattern);
        self.length += turn.pattern.len();
        number
    }

    pub fn is_empty(&self) -> bool {
        self.turns.is_empty()
    }

    pub fn is_full(&self) -> bool {
        self.holes.len() + 2 * TURN > HOLES || self.length >= PATTERNS || self.turns.len() >= self.most_turns
    }

    pub fn clear(&mut self) {
        self.patterns.clear();
        self.length = 0;
        self.turns.clear();
        self.holes.clear();
    }

    /// The payload up to the holes. The patterns that are used most come first, since the first indexes may be shorter.
    pub fn front(&self) -> Vec<u8> {
        let mut patterns: Vec<(&[u8], &Pattern)> = self.patterns.iter().map(|(bytes, pattern)| (&**bytes, pattern)).collect();
        patterns.sort_unstable_by_key(|(_, pattern)| (Reverse(pattern.uses), pattern.number));
        let mut front = Vec::new();
        let mut indexes = vec![0; patterns.len()];
        put_number(&mut front, patterns.len() as u32);
        for (index, (bytes, pattern)) in (0..).zip(&patterns) {
            indexes[usize::from(pattern.number)] = index;
            put_number(&mut front, pattern.statements as u32);
            front.extend_from_slice(bytes);
        }
        put_number(&mut front, self.turns.len() as u32);
        index::pack(self.turns.iter().map(|number| indexes[usize::from(*number)]), patterns.len(), &mut front);
        front
    }
}

/// A quick hash of some bytes. Whoever made patterns that meet would slow their own record down and nothing else.
#[derive(Default)]
struct Quick(u64);

impl Hasher for Quick {
    fn write(&mut self, bytes: &[u8]) {
        let mut eights = bytes.chunks_exact(8);
        for eight in &mut eights {
            self.write_u64(u64::from_le_bytes(eight.try_into().unwrap_or_default()));
        }
        self.write_u64(eights.remainder().iter().fold(0, |word, byte| (word << 8) | u64::from(*byte)));
    }

    fn write_u64(&mut self, word: u64) {
        self.0 = (self.0.rotate_left(5) ^ word).wrapping_mul(0x9e37_79b9_7f4a_7c15);
    }

    fn write_usize(&mut self, number: usize) {
        self.write_u64(number as u64);
    }

    /// The high bits are the mixed ones; a table looks at the low ones too.
    fn finish(&self) -> u64 {
        self.0 ^ (self.0 >> 32)
    }
}
