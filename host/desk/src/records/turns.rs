//! The turns of a block that was read, handed out statement by statement.

use super::cursor::{Cursor, Wrong};
use super::index;
use super::layout::MOST_TURNS;
use super::pattern::{Pattern, Patterns, Step};
use crate::chip::event::Event;
use crate::scripts::statement::Action;
use bemulatsho::kind;

/// What nearly all statements of a record are.
#[derive(Clone, Copy, Debug, PartialEq, Eq)]
pub enum Common {
    Event(Event),
    Sent(u16),
}

impl From<Common> for Action {
    fn from(common: Common) -> Action {
        match common {
            Common::Event(event) => Action::Event(event),
            Common::Sent(word) => Action::Sent { word },
        }
    }
}

#[derive(Default)]
pub struct Turns {
    /// The payload of the block that was read last.
    pub payload: Vec<u8>,
    patterns: Patterns,
    /// The pattern of each turn.
    indexes: Vec<u16>,
    /// The turn that comes next.
    turn: usize,
    /// The steps of this turn that are left, and where the next hole stands.
    step: usize,
    last: usize,
    hole: usize,
}

impl Turns {
    /// Makes the payload ready and counts its words sent. All of it is seen to be possible before anything is handed out; after a fault
    /// it is to be cleared.
    pub fn prepare(&mut self) -> Result<u64, Wrong> {
        self.clear();
        let mut bytes = Cursor::new(&self.payload);
        self.patterns.read(&mut bytes)?;
        let patterns = &self.patterns.list;
        let turns = bytes.count(MOST_TURNS, "turns")?;
        index::unpack(&mut bytes, turns, patterns.len(), &mut self.indexes)?;
        let count = |of: fn(&Pattern) -> u32| self.indexes.iter().map(|index| u64::from(of(&patterns[usize::from(*index)]))).sum::<u64>();
        let (ins, sents) = (count(|pattern| pattern.ins), count(|pattern| pattern.sents));
        self.hole = bytes.at();
        match bytes.left() as u64 {
            left if left == 2 * (ins + sents) => Ok(sents),
            left => Err(format!("{left} bytes of words: expected {}", 2 * (ins + sents))),
        }
    }

    /// Forgets what is left.
    pub fn clear(&mut self) {
        self.indexes.clear();
        (self.turn, self.step, self.last) = (0, 0, 0);
    }

    /// The next statement; none when the block has ended.
    pub fn next(&mut self) -> Option<Action> {
        self.common().map(Action::from).or_else(|| self.other())
    }

    /// The next statement, if it is an event or a word sent.
    #[inline(always)]
    pub fn common(&mut self) -> Option<Common> {
        let common = match self.step()? {
            Step::In => Common::Event(Event { kind: kind::SERIAL_IN, value: u32::from(self.word()) }),
            Step::Sent => Common::Sent(self.word()),
            Step::Event(event) => Common::Event(event),
            Step::Other(_) => return None,
        };
        self.step += 1;
        Some(common)
    }

    /// The next statement, if it is another.
    fn other(&mut self) -> Option<Action> {
        let Step::Other(place) = self.step()? else { return None };
        self.step += 1;
        Some(self.patterns.others[place as usize].clone())
    }

    /// The step that comes next.
    #[inline]
    fn step(&mut self) -> Option<Step> {
        if self.step == self.last {
            let index = *self.indexes.get(self.turn)?;
            let pattern = self.patterns.list[usize::from(index)];
            self.turn += 1;
            (self.step, self.last) = (pattern.from as usize, pattern.to as usize);
        }
        Some(self.patterns.steps[self.step])
    }

    /// The word of the next hole.
    #[inline]
    fn word(&mut self) -> u16 {
        let word = [self.payload[self.hole], self.payload[self.hole + 1]];
        self.hole += 2;
        u16::from_le_bytes(word)
    }
}
