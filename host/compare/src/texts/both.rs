//! One text given to both readers, with an image each that holds the same before.

use super::back;
use super::kind::Kind;
use bemulatsho::Loading;
use random::Random;
use text::Outcome;

pub struct Both {
    kind: Kind,
    /// What the image holds before a call.
    before: u32,
}

/// A text on which the two readers differ, or a preset that is not written back as it should.
pub struct Difference {
    kind: Kind,
    before: u32,
    length: usize,
    text: Vec<u8>,
    what: String,
}

/// The number, and the line that decided.
#[derive(Clone, Copy, Debug, PartialEq, Eq)]
pub struct Decided {
    pub number: u8,
    pub line: usize,
}

/// What a reader left.
#[derive(PartialEq)]
struct Left {
    decided: Decided,
    image: Vec<u32>,
}

impl Both {
    pub fn new(random: &mut Random, kind: Kind) -> Both {
        Both { kind, before: random.next() as u32 }
    }

    /// A text that both must take, with the image that it was made of.
    pub fn give_all(&mut self, text: &[u8], bytes: &[u8]) -> Result<(), Difference> {
        let proved = self.left(text, self.kind.cells())?;
        let cells: Vec<u32> = bytes.chunks(self.kind.width()).map(low_byte_first).collect();
        if proved.decided.number != 0 || proved.image != cells {
            return Err(self.difference(text, format!("made of an image that it does not bring: {}", told(&proved))));
        }
        Ok(())
    }

    /// Any text: what both say of it.
    pub fn give(&mut self, text: &[u8]) -> Result<Decided, Difference> {
        Ok(self.left(text, self.kind.cells())?.decided)
    }

    /// A text that both must refuse.
    pub fn refuse(&mut self, text: &[u8]) -> Result<Decided, Difference> {
        let decided = self.give(text)?;
        match decided.number {
            0 => Err(self.difference(text, "taken, and was to be refused".to_string())),
            _ => Ok(decided),
        }
    }

    /// An image of another length than the chip's.
    pub fn wrong_length(&mut self, random: &mut Random, text: &[u8]) -> Result<(), Difference> {
        let cells = self.kind.cells();
        let length = random.pick(&[0, 1, cells / 4, cells - 1, cells + 1, 2 * cells, 4 * cells]);
        let proved = self.left(text, length)?;
        match proved.decided {
            Decided { number: 1, line: 0 } => Ok(()),
            _ => Err(Difference { length, ..self.difference(text, told(&proved)) }),
        }
    }

    /// What both leave, if it is the same.
    fn left(&self, text: &[u8], length: usize) -> Result<Left, Difference> {
        left(self.kind, self.before, text, length).map_err(|what| Difference { length, ..self.difference(text, what) })
    }

    /// One line, read alone.
    pub fn record(&self, line: &[u8]) -> Result<(), Difference> {
        let proved = bemulatsho::read_record(line);
        let second = text::read_record(line);
        // The part is the very part of the line: where it stands in memory, and how long it is.
        let offset = (proved.data.as_ptr() as usize).wrapping_sub(line.as_ptr() as usize);
        let part = offset..offset + proved.data.len();
        let same = (proved.number, proved.kind, proved.address, proved.bytes) == (second.number, second.kind, second.address, second.bytes);
        match same && part == second.data {
            true => Ok(()),
            false => {
                let bemulatsho::Record { number, kind, address, bytes, .. } = proved;
                let proved = text::ReadRecord { number, kind, address, bytes, data: part };
                Err(self.difference(line, format!("read alone: {proved:?}, second reader {second:?}")))
            }
        }
    }

    pub fn difference(&self, text: &[u8], what: String) -> Difference {
        Difference { kind: self.kind, before: self.before, length: self.kind.cells(), text: text.to_vec(), what }
    }
}

/// What both readers leave, or how they differ; of a preset also what is wrong with it written back.
fn left(kind: Kind, before: u32, text: &[u8], length: usize) -> Result<Left, String> {
    let (proved, second) = match kind {
        Kind::Program => read(text, vec![before; length], bemulatsho::load_program, text::load_program),
        Kind::Data => read(text, vec![before as u16; length], bemulatsho::load_data, text::load_data),
        Kind::Preset => read(text, vec![before as u16; length], bemulatsho::load_preset, text::load_preset),
    };
    if proved != second {
        return Err(format!("{}, second reader {}", told(&proved), told(&second)));
    }
    if kind == Kind::Preset && length == kind.cells() {
        back::check(text, proved.decided, &proved.image)?;
    }
    Ok(proved)
}

/// Gives a text to both readers.
fn read<Cell: Copy + Into<u32>>(
    text: &[u8],
    before: Vec<Cell>,
    proved: impl Fn(&[u8], &mut [Cell]) -> Loading,
    second: impl Fn(&[u8], &mut [Cell]) -> Outcome,
) -> (Left, Left) {
    let (mut first, mut other) = (before.clone(), before);
    let Loading { number, line } = proved(text, &mut first);
    let proved = Left { decided: Decided { number, line }, image: wide(&first) };
    let Outcome { number, line } = second(text, &mut other);
    (proved, Left { decided: Decided { number, line }, image: wide(&other) })
}

fn wide<Cell: Copy + Into<u32>>(cells: &[Cell]) -> Vec<u32> {
    cells.iter().map(|cell| (*cell).into()).collect()
}

fn low_byte_first(bytes: &[u8]) -> u32 {
    bytes.iter().rev().fold(0, |number, byte| number << 8 | u32::from(*byte))
}

fn told(left: &Left) -> String {
    let sum = left.image.iter().fold(0u32, |sum, cell| sum.wrapping_mul(31).wrapping_add(*cell));
    format!("number {} line {} (image {sum:08X})", left.decided.number, left.decided.line)
}

impl Difference {
    /// The text with lines left out, and then characters, as long as something is wrong with it.
    pub fn smallest(mut self) -> String {
        let lines = self.text.split_inclusive(|character| *character == b'\n').map(<[u8]>::to_vec).collect();
        let lines = self.fewest(lines);
        self.fewest(lines.concat().into_iter().map(|character| vec![character]).collect());
        format!("{} of {} cells: {}\n{:?}", self.kind.name(), self.length, self.what, String::from_utf8_lossy(&self.text))
    }

    /// Leaves out parts of the text, large ones first.
    fn fewest(&mut self, mut parts: Vec<Vec<u8>>) -> Vec<Vec<u8>> {
        let mut count = parts.len() / 2;
        while count > 0 {
            let mut from = 0;
            while from < parts.len() {
                let mut fewer = parts.clone();
                fewer.drain(from..(from + count).min(fewer.len()));
                let text = fewer.concat();
                match left(self.kind, self.before, &text, self.length) {
                    Ok(_) => from += count,
                    Err(what) => {
                        self.what = what;
                        self.text = text;
                        parts = fewer;
                    }
                }
            }
            count /= 2;
        }
        parts
    }
}
