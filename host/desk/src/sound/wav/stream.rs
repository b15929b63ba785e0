//! The bytes of a sound file as they come: its chunks, and its end against the size that its header says.

use super::wrong::Wrong;
use std::io::{self, ErrorKind, Read};

pub const BUFFER: usize = 64 * 1024;

pub struct Stream<R> {
    input: R,
    input_is_over: bool,
    /// The bytes from `from` to `to` wait; `at` is the place of the first of them in the file.
    buffer: Vec<u8>,
    from: usize,
    to: usize,
    at: u64,
    /// How many bytes the file has by its header, where that is known.
    said: Option<u64>,
}

/// A part of the file: where it begins, its name, and how many bytes it holds.
pub struct Chunk {
    pub at: u64,
    pub name: [u8; 4],
    pub size: u32,
}

impl Chunk {
    pub fn another(&self) -> Wrong {
        Wrong::broken(self.at, format!("another `{}` chunk: expected one", self.name.escape_ascii()))
    }
}

impl<R: Read> Stream<R> {
    pub fn new(input: R) -> Stream<R> {
        Stream { input, input_is_over: false, buffer: vec![0; BUFFER], from: 0, to: 0, at: 0, said: None }
    }

    pub fn at(&self) -> u64 {
        self.at
    }

    pub fn waiting(&self) -> &[u8] {
        &self.buffer[self.from..self.to]
    }

    /// Passes over bytes that wait.
    pub fn pass(&mut self, count: usize) {
        self.from += count;
        self.at += count as u64;
    }

    /// Waits for so many bytes, at most a buffer; fewer wait only where the input ends.
    pub fn wait_for(&mut self, count: usize) -> io::Result<()> {
        while self.waiting().len() < count && self.more()? {}
        Ok(())
    }

    fn more(&mut self) -> io::Result<bool> {
        self.buffer.copy_within(self.from..self.to, 0);
        (self.from, self.to) = (0, self.to - self.from);
        // A terminal goes on after its end if it is asked again.
        while !self.input_is_over {
            match self.input.read(&mut self.buffer[self.to..]) {
                Ok(0) => self.input_is_over = true,
                Ok(count) => {
                    self.to += count;
                    return Ok(true);
                }
                Err(error) if error.kind() == ErrorKind::Interrupted => {}
                Err(error) => return Err(error),
            }
        }
        Ok(false)
    }

    pub fn input_goes_on(&mut self) -> io::Result<bool> {
        self.wait_for(1)?;
        Ok(!self.waiting().is_empty())
    }

    /// Holds the file to a number of bytes.
    pub fn say(&mut self, said: u64) -> Result<(), Wrong> {
        self.said = Some(said);
        if said < self.at {
            Err(goes_on(said))
        } else {
            Ok(())
        }
    }

    /// Whether all bytes are passed: those that the header says, or else all of the input.
    pub fn is_over(&mut self) -> io::Result<bool> {
        match self.said {
            Some(said) => Ok(self.at == said),
            None => Ok(!self.input_goes_on()?),
        }
    }

    /// That the input ends here.
    pub fn closes(&mut self) -> Result<(), Wrong> {
        if self.input_goes_on()? {
            Err(goes_on(self.at))
        } else {
            Ok(())
        }
    }

    /// What is wrong where more was expected and the file, or what its header says of it, is over.
    pub fn end(&mut self, expected: &str) -> Wrong {
        match (self.said, self.input_goes_on()) {
            (_, Err(error)) => error.into(),
            (Some(said), Ok(_)) if self.at < said => {
                Wrong::cut(self.at, format!("the file ends: expected {said} bytes, as its header says"))
            }
            (Some(said), Ok(true)) => goes_on(said),
            _ => Wrong::broken(self.at, format!("the file ends: expected {expected}")),
        }
    }

    /// Takes bytes up to the end that the header says, and how many there were.
    pub fn take_some(&mut self, into: &mut [u8]) -> io::Result<usize> {
        let count = limited(into.len(), self.room());
        self.wait_for(count)?;
        let count = count.min(self.waiting().len());
        into[..count].copy_from_slice(&self.waiting()[..count]);
        self.pass(count);
        Ok(count)
    }

    pub fn take_all(&mut self, into: &mut [u8], expected: &str) -> Result<(), Wrong> {
        if self.take_some(into)? < into.len() {
            Err(self.end(expected))
        } else {
            Ok(())
        }
    }

    fn take<const COUNT: usize>(&mut self, expected: &str) -> Result<[u8; COUNT], Wrong> {
        let mut bytes = [0; COUNT];
        self.take_all(&mut bytes, expected)?;
        Ok(bytes)
    }

    /// How many bytes may follow.
    fn room(&self) -> u64 {
        self.said.map_or(u64::MAX, |said| said.saturating_sub(self.at))
    }

    /// The name and size of the chunk that begins here.
    pub fn chunk(&mut self) -> Result<Chunk, Wrong> {
        let at = self.at;
        let name = self.take("the name of a chunk")?;
        let size = u32::from_le_bytes(self.take("the size of a chunk")?);
        Ok(Chunk { at, name, size })
    }

    /// That a chunk, of which only name and size are taken, ends within the file.
    pub fn fits(&self, chunk: &Chunk) -> Result<(), Wrong> {
        let Chunk { at, name, size } = chunk;
        if u64::from(*size) > self.room() {
            let what = format!("`{}` has {size} bytes: expected at most the {} that follow", name.escape_ascii(), self.room());
            return Err(Wrong::broken(at + 4, what));
        }
        Ok(())
    }

    /// Passes over a chunk, of which only name and size are taken.
    pub fn pass_over(&mut self, chunk: &Chunk) -> Result<(), Wrong> {
        self.fits(chunk)?;
        self.pass_rest(chunk, chunk.size)
    }

    /// Passes over the last bytes of a chunk, and its pad byte.
    pub fn pass_rest(&mut self, chunk: &Chunk, bytes: u32) -> Result<(), Wrong> {
        let mut left = u64::from(bytes);
        while left > 0 {
            if !self.input_goes_on()? {
                return Err(self.end("the rest of a chunk"));
            }
            let count = limited(self.waiting().len(), left);
            self.pass(count);
            left -= count as u64;
        }
        if !chunk.size.is_multiple_of(2) {
            self.take::<1>("the pad byte of an odd chunk")?;
        }
        Ok(())
    }
}

fn goes_on(said: u64) -> Wrong {
    Wrong::broken(said, format!("the file goes on: expected {said} bytes, as its header says"))
}

/// A count, or the limit if that is less.
pub fn limited(count: usize, limit: u64) -> usize {
    usize::try_from(limit).map_or(count, |limit| count.min(limit))
}
