//! Reads a compact record as a stream of statements. One block is held, and nothing of it is handed out before its check has held.

use super::crc::Crc;
use super::layout::{header, BLOCK_HEAD, CHECK, END, END_PAYLOAD, HEADER, LONGEST_PAYLOAD, MAGIC, TURNS, VERSION};
use super::order::Order;
use super::turns::{Common, Turns};
use crate::fault::{self, Fault, Place, Spot};
use crate::scripts::statement::{Action, Statement};
use std::io::Read;
use std::path::Path;

/// Why there are no more statements, though the record has not come to its end.
#[derive(Clone, Debug, PartialEq, Eq)]
pub enum Stop {
    /// The file ends before its end block. All that was handed out is right.
    Cut(Fault),
    /// The file was altered, is no record or cannot be read.
    Bad(Fault),
}

impl Stop {
    pub fn fault(self) -> Fault {
        match self {
            Stop::Cut(fault) | Stop::Bad(fault) => fault,
        }
    }
}

pub struct Reader<R> {
    input: R,
    file: &'static Path,
    /// The check of what was read, the checks left out.
    crc: Crc,
    /// How many bytes were read.
    bytes: u64,
    turns: Turns,
    order: Order,
    statements: u64,
    sent: u64,
    state: State,
}

enum State {
    /// Nothing was read.
    New,
    /// A block comes next.
    Within,
    Ended,
    Stopped(Stop),
}

impl<R: Read> Reader<R> {
    /// A reader that has read nothing; `file` is its name in faults.
    pub fn new(file: &Path, input: R) -> Reader<R> {
        let (file, turns, order) = (fault::named(file), Turns::default(), Order::default());
        Reader { input, file, crc: Crc::new(), bytes: 0, turns, order, statements: 0, sent: 0, state: State::New }
    }

    /// Sees the images that were given before the record's first statement.
    pub fn given(&mut self, before: &[Statement]) -> Result<(), Fault> {
        before.iter().try_for_each(|image| self.order.see_image(image))
    }

    /// How many bytes were read so far.
    pub fn bytes(&self) -> u64 {
        self.bytes
    }

    /// The next statement; none at the end of a record that is whole. After a stop there is the same stop again, and never an end.
    #[allow(clippy::should_implement_trait, reason = "an iterator's end could be taken for a record's")]
    pub fn next(&mut self) -> Result<Option<Statement>, Stop> {
        loop {
            if let Some((place, common)) = self.common() {
                return Ok(Some(Statement { place, action: common.into() }));
            }
            if let Some(action) = self.turns.next() {
                return self.looked_at(action).map(Some);
            }
            if !self.more()? {
                return Ok(None);
            }
        }
    }

    /// The next statement, if it is at hand and an event or a word sent; else it is for `next`.
    #[inline(always)]
    pub fn common(&mut self) -> Option<(Place, Common)> {
        if self.order.ended() {
            return None;
        }
        let common = self.turns.common()?;
        Some((self.next_place(), common))
    }

    #[inline]
    fn next_place(&mut self) -> Place {
        self.statements += 1;
        Place { file: self.file, spot: Spot::Statement(self.statements) }
    }

    /// A statement that depends on those before it: any but an event or a word sent, and any behind the end.
    fn looked_at(&mut self, action: Action) -> Result<Statement, Stop> {
        let place = self.next_place();
        match self.order.see(&action, place) {
            Ok(()) => Ok(Statement { place, action }),
            Err(fault) => Err(self.stopped(Stop::Bad(fault))),
        }
    }

    /// Reads the next block, if the record goes on.
    fn more(&mut self) -> Result<bool, Stop> {
        let read = match &self.state {
            State::New => self.read_header().and_then(|()| self.read_block()),
            State::Within => self.read_block(),
            State::Ended => return Ok(false),
            State::Stopped(stop) => return Err(stop.clone()),
        };
        self.state = match read {
            Ok(TURNS) => State::Within,
            Ok(_) => State::Ended,
            Err(stop) => return Err(self.stopped(stop)),
        };
        Ok(true)
    }

    fn stopped(&mut self, stop: Stop) -> Stop {
        self.turns.clear();
        self.state = State::Stopped(stop.clone());
        stop
    }

    fn read_header(&mut self) -> Result<(), Stop> {
        let found = self.taken(HEADER)?;
        self.crc.add(&found);
        match found.iter().zip(header()).position(|(found, expected)| *found != expected) {
            Some(at) => Err(self.bad(at as u64, other_header(&found, at))),
            None if found.len() < HEADER => Err(self.cut("within its first bytes")),
            None => Ok(()),
        }
    }

    /// Reads a block whole and gives its tag.
    fn read_block(&mut self) -> Result<u8, Stop> {
        let begin = self.bytes;
        let head = self.taken(BLOCK_HEAD)?;
        let Ok([tag, length @ ..]) = <[u8; BLOCK_HEAD]>::try_from(head.as_slice()) else {
            return Err(self.cut(if head.is_empty() { "without an end block" } else { "within a block" }));
        };
        let length = u32::from_le_bytes(length) as usize;
        self.possible(begin, tag, length)?;
        let check = self.read_payload(&head, length)?;
        if check != self.crc.value() {
            let message = format!("a block of {length} bytes does not have the check that stands behind it; the record was altered");
            return Err(self.bad(begin, message));
        }
        match tag {
            TURNS => self.sent += self.turns.prepare().map_err(|wrong| self.bad(begin, format!("a block with {wrong}")))?,
            _ => self.read_end(begin)?,
        }
        Ok(tag)
    }

    fn possible(&self, begin: u64, tag: u8, length: usize) -> Result<(), Stop> {
        match (tag, length) {
            (TURNS, 0..=LONGEST_PAYLOAD) | (END, END_PAYLOAD) => Ok(()),
            (TURNS, _) => Err(self.bad(begin, format!("a block of {length} bytes: expected at most {LONGEST_PAYLOAD}"))),
            (END, _) => Err(self.bad(begin, format!("an end block of {length} bytes: expected {END_PAYLOAD}"))),
            _ => Err(self.bad(begin, format!("a block of tag {tag:02X}H: expected {TURNS:02X}H or {END:02X}H"))),
        }
    }

    /// Reads the payload of a block into its place, and gives the check behind it.
    fn read_payload(&mut self, head: &[u8], length: usize) -> Result<u64, Stop> {
        let mut payload = std::mem::take(&mut self.turns.payload);
        payload.clear();
        // A longer one is not made of the old one, so that never both are held.
        if payload.capacity() < length + CHECK {
            drop(payload);
            payload = Vec::with_capacity(length + CHECK);
        }
        let read = self.take(length + CHECK, &mut payload);
        let check = payload.get(length..).and_then(|check| check.try_into().ok()).map(u64::from_le_bytes);
        payload.truncate(length);
        self.crc.add(head);
        self.crc.add(&payload);
        self.turns.payload = payload;
        read?;
        check.ok_or_else(|| self.cut("within a block"))
    }

    /// What the end says is what was read, and nothing follows.
    fn read_end(&mut self, begin: u64) -> Result<(), Stop> {
        let read = [self.statements, self.sent, self.bytes];
        let found = self.turns.payload.chunks_exact(8).map(|number| u64::from_le_bytes(number.try_into().unwrap_or_default()));
        for ((found, read), of) in found.zip(read).zip(["statements", "words sent", "bytes"]) {
            if found != read {
                return Err(self.bad(begin, format!("an end after {found} {of}: expected it after {read}")));
            }
        }
        let end = self.bytes;
        match self.taken(1)?.len() {
            0 => Ok(()),
            _ => Err(self.bad(end, "bytes behind the end of the record: expected nothing".to_string())),
        }
    }

    /// So many bytes, or as many as there are.
    fn taken(&mut self, count: usize) -> Result<Vec<u8>, Stop> {
        let mut bytes = Vec::new();
        self.take(count, &mut bytes)?;
        Ok(bytes)
    }

    fn take(&mut self, count: usize, bytes: &mut Vec<u8>) -> Result<(), Stop> {
        bytes.reserve_exact(count);
        let read = self.input.by_ref().take(count as u64).read_to_end(bytes);
        self.bytes += bytes.len() as u64;
        read.map(drop).map_err(|error| Stop::Bad(Fault::of_file(self.file, "read", &error)))
    }

    fn cut(&self, place: &str) -> Stop {
        let message = format!("the record ends {place}: expected its end; it was cut, or is still being written");
        Stop::Cut(self.at_byte(self.bytes, message))
    }

    fn bad(&self, at: u64, message: String) -> Stop {
        Stop::Bad(self.at_byte(at, message))
    }

    fn at_byte(&self, at: u64, message: String) -> Fault {
        Fault::bad(format!("{}: at byte {at}: {message}", self.file.display()))
    }
}

/// What is said of a header that is another from some byte on.
fn other_header(found: &[u8], at: usize) -> String {
    let expected = header();
    let (part, meaning) = match at {
        0..=7 => (0..found.len().min(MAGIC.len()), "as a record begins".to_string()),
        _ => (MAGIC.len()..found.len(), format!("a record of version {VERSION}")),
    };
    format!("{}: expected {}, {meaning}", hexadecimal(&found[part.clone()]), hexadecimal(&expected[part]))
}

fn hexadecimal(bytes: &[u8]) -> String {
    bytes.iter().map(|byte| format!("{byte:02X}")).collect::<Vec<String>>().join(" ")
}
