//! Writes a compact record.

use super::crc::Crc;
use super::gathered::{Gathered, Turn};
use super::layout::{header, CHECK, END, END_PAYLOAD, TURNS};
use super::order::Order;
use super::pattern;
use crate::fault::{Place, Spot};
use crate::scripts::statement::Action;
use std::io::{self, ErrorKind, Write};
use std::path::Path;

/// Takes statements one by one and writes whole blocks of them. What is not finished is read as a record that was cut.
pub struct Writer<W: Write> {
    output: W,
    /// The check of what was written, the checks left out.
    crc: Crc,
    length: u64,
    /// The statements of the turns that have ended, and the words sent.
    statements: u64,
    sent: u64,
    order: Order,
    turn: Turn,
    block: Gathered,
}

impl<W: Write> Writer<W> {
    /// Begins a record. Pieces of some size are written, so that the output needs no buffer.
    pub fn new(output: W) -> io::Result<Writer<W>> {
        let (order, turn, block) = (Order::default(), Turn::default(), Gathered::new());
        let mut writer = Writer { output, crc: Crc::new(), length: 0, statements: 0, sent: 0, order, turn, block };
        writer.put(&header())?;
        Ok(writer)
    }

    /// A writer of small blocks.
    #[cfg(test)]
    pub fn with_most_turns(output: W, most_turns: usize) -> io::Result<Writer<W>> {
        let mut writer = Writer::new(output)?;
        writer.block.most_turns = most_turns;
        Ok(writer)
    }

    /// Adds a statement. One that a reader would refuse is refused: an address given twice, a statement after `samples`, a line too long.
    #[inline]
    pub fn write(&mut self, action: &Action) -> io::Result<()> {
        if self.order.ended() || !pattern::put(action, &mut self.turn.pattern, &mut self.block.holes) {
            self.put_line(action)?;
        }
        self.turn.statements += 1;
        let sent = matches!(action, Action::Sent { .. });
        if sent || self.turn.is_full() {
            self.sent += u64::from(sent);
            self.end_turn()?;
        }
        Ok(())
    }

    fn put_line(&mut self, action: &Action) -> io::Result<()> {
        let place = Place { file: Path::new("the record"), spot: Spot::Statement(self.statements + self.turn.statements as u64 + 1) };
        self.order.see(action, place).map_err(|fault| refused(fault.to_string()))?;
        pattern::put_line(action, &mut self.turn.pattern).map_err(refused)
    }

    /// Writes what is left and the end, and hands the output back.
    pub fn finish(mut self) -> io::Result<W> {
        if self.turn.statements > 0 {
            self.end_turn()?;
        }
        if !self.block.is_empty() {
            self.end_block()?;
        }
        self.put_head(END, END_PAYLOAD)?;
        let length = self.length + (END_PAYLOAD + CHECK) as u64;
        for number in [self.statements, self.sent, length] {
            self.put(&number.to_le_bytes())?;
        }
        self.put_check()?;
        self.output.flush()?;
        Ok(self.output)
    }

    fn end_turn(&mut self) -> io::Result<()> {
        self.block.add(&self.turn);
        self.statements += self.turn.statements as u64;
        self.turn.pattern.clear();
        self.turn.statements = 0;
        if self.block.is_full() {
            self.end_block()?;
        }
        Ok(())
    }

    fn end_block(&mut self) -> io::Result<()> {
        let front = self.block.front();
        let holes = std::mem::take(&mut self.block.holes);
        self.put_head(TURNS, front.len() + holes.len())?;
        self.put(&front)?;
        self.put(&holes)?;
        self.put_check()?;
        self.block.holes = holes;
        self.block.clear();
        Ok(())
    }

    fn put_head(&mut self, tag: u8, length: usize) -> io::Result<()> {
        self.put(&[tag])?;
        self.put(&(length as u32).to_le_bytes())
    }

    /// Writes what a check is taken over. It is counted even where it cannot be written, so that no record that lacks it can be whole.
    fn put(&mut self, bytes: &[u8]) -> io::Result<()> {
        self.crc.add(bytes);
        self.length += bytes.len() as u64;
        self.output.write_all(bytes)
    }

    fn put_check(&mut self) -> io::Result<()> {
        self.length += CHECK as u64;
        self.output.write_all(&self.crc.value().to_le_bytes())
    }
}

fn refused(message: String) -> io::Error {
    io::Error::new(ErrorKind::InvalidInput, message)
}
