//! The statements of a turn without the words that change from turn to turn: those of `in` and `sent`, which are its holes.
//!
//! A statement is a tag and what belongs to it. The tags 0 to 7 are the events of these kinds, each with its value.

use super::cursor::{put_number, Cursor, Wrong};
use super::layout::{LONGEST_LINE, MOST_STATEMENTS};
use crate::chip::device::Device;
use crate::chip::event::Event;
use crate::scripts::parse;
use crate::scripts::statement::Action;
use crate::scripts::words::Words;
use bemulatsho::kind;
use std::path::Path;

/// An `in` and a `sent`, their words in holes.
const IN: u8 = 8;
const SENT: u8 = 9;

/// Any other statement as a line of a script: its length in bytes, and the line without its end.
const LINE: u8 = 10;

/// Appends an event or a word sent to a pattern, and its word, if it has one that changes, to the holes. Others are not put here.
#[inline]
pub fn put(action: &Action, pattern: &mut Vec<u8>, holes: &mut Vec<u8>) -> bool {
    match *action {
        Action::Event(Event { kind: kind::SERIAL_IN, value: value @ 0..=0xffff }) => put_hole(IN, value as u16, pattern, holes),
        Action::Event(Event { kind: kind @ 0..=7, value }) => {
            pattern.push(kind as u8);
            put_number(pattern, value);
        }
        Action::Sent { word } => put_hole(SENT, word, pattern, holes),
        _ => return false,
    }
    true
}

#[inline]
fn put_hole(tag: u8, word: u16, pattern: &mut Vec<u8>, holes: &mut Vec<u8>) {
    pattern.push(tag);
    holes.extend_from_slice(&word.to_le_bytes());
}

/// Appends any statement as its line. What would not be read back as the same is refused, as a name with a quote, which no line holds.
pub fn put_line(action: &Action, pattern: &mut Vec<u8>) -> Result<(), Wrong> {
    let line = action.to_string();
    if line_read(&line)? != *action {
        return Err(format!("{line:?}, which says another statement than the one given: expected names without quotes"));
    }
    pattern.push(LINE);
    put_number(pattern, line.len() as u32);
    pattern.extend_from_slice(line.as_bytes());
    Ok(())
}

/// Patterns do not stand in the order of their statements: whether one fits the chip that was said is seen when it is handed out.
fn line_read(line: &str) -> Result<Action, Wrong> {
    if line.len() > LONGEST_LINE || line.contains('\n') {
        return Err(format!("a statement of {} bytes: expected one line of at most {LONGEST_LINE}", line.len()));
    }
    let mut words = Words::new(Path::new(""), 1, line).map_err(|fault| fault.message)?;
    let first = words.next().ok_or("an empty line: expected a statement")?;
    parse::statement(Device::Upd77c25, &first, &mut words).map_err(|fault| fault.message)
}

/// A statement of a pattern, ready to be filled.
#[derive(Clone, Copy, Debug)]
pub enum Step {
    In,
    Sent,
    Event(Event),
    /// One of the other statements, by its place among them.
    Other(u32),
}

/// Where the steps of a pattern stand, and how many of them are `in` or `sent`.
#[derive(Clone, Copy, Debug)]
pub struct Pattern {
    pub from: u32,
    pub to: u32,
    pub ins: u32,
    pub sents: u32,
}

/// The patterns of a block.
#[derive(Default)]
pub struct Patterns {
    pub list: Vec<Pattern>,
    /// The steps of all patterns, one pattern after the other.
    pub steps: Vec<Step>,
    pub others: Vec<Action>,
}

impl Patterns {
    pub fn clear(&mut self) {
        self.list.clear();
        self.steps.clear();
        self.others.clear();
    }

    /// Takes the patterns from the beginning of a payload.
    pub fn read(&mut self, bytes: &mut Cursor) -> Result<(), Wrong> {
        self.clear();
        let patterns = bytes.count(MOST_STATEMENTS, "patterns")?;
        for _ in 0..patterns {
            let from = self.steps.len();
            let statements = bytes.count(MOST_STATEMENTS - from, "statements of a pattern")?;
            for _ in 0..statements {
                let step = self.step(bytes)?;
                self.steps.push(step);
            }
            self.list.push(pattern(&self.steps, from));
        }
        Ok(())
    }

    fn step(&mut self, bytes: &mut Cursor) -> Result<Step, Wrong> {
        match bytes.byte()? {
            IN => Ok(Step::In),
            SENT => Ok(Step::Sent),
            LINE => {
                let length = bytes.count(LONGEST_LINE, "bytes of a line")?;
                let line = std::str::from_utf8(bytes.take(length)?).map_err(|_| "bytes that are no text: expected UTF-8")?;
                let action = line_read(line)?;
                if matches!(action, Action::Event(Event { kind: 0..=7, .. }) | Action::Sent { .. }) {
                    return Err(format!("the line {line:?}: expected it by its own tag"));
                }
                self.others.push(action);
                Ok(Step::Other(self.others.len() as u32 - 1))
            }
            kind @ 0..=7 => Ok(Step::Event(Event { kind: u32::from(kind), value: bytes.number()? })),
            tag => Err(format!("a statement of tag {tag}: expected a tag up to {LINE}")),
        }
    }
}

/// The pattern of the last steps of a list.
fn pattern(steps: &[Step], from: usize) -> Pattern {
    let count = |is: fn(&Step) -> bool| steps[from..].iter().filter(|step| is(step)).count() as u32;
    let (ins, sents) = (count(|step| matches!(step, Step::In)), count(|step| matches!(step, Step::Sent)));
    Pattern { from: from as u32, to: steps.len() as u32, ins, sents }
}
