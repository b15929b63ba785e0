//! Records of what a processor was given and sent: as a text, or in the compact form (docs/RECORDS.md), told apart by their first byte.

pub mod compact;
mod crc;
mod cursor;
mod gathered;
mod index;
mod layout;
mod order;
mod pattern;
mod reader;
mod turns;
mod writer;

#[cfg(test)]
mod tests;

use crate::fault::{Fault, Place};
use crate::files::{first_bytes, is_standard};
use crate::scripts;
use crate::scripts::statement::Statement;
use compact::Stop;
use std::fs::File;
use std::io::{self, BufRead, BufReader};
use std::path::{Path, PathBuf};
pub use turns::Common;

#[derive(Clone, Copy, Debug, PartialEq, Eq)]
pub enum Form {
    Text,
    Compact,
}

/// The form of what begins with these bytes. No text begins with the first byte of a compact record, so that one byte tells, and a
/// record whose beginning is damaged is refused as a record.
pub fn form(first: &[u8]) -> Form {
    match first.first() {
        Some(byte) if *byte == layout::MAGIC[0] => Form::Compact,
        _ => Form::Text,
    }
}

/// A record of either form, read as a stream of statements.
pub struct Record {
    file: Option<PathBuf>,
    statements: Statements,
}

enum Statements {
    Text { reader: scripts::reader::Reader, failed: Option<Fault> },
    Compact(compact::Reader<Box<dyn BufRead + Send>>),
}

/// Opens a record; `-` is standard input.
pub fn open(path: &Path) -> Result<Record, Fault> {
    if is_standard(path) {
        return Record::of_input(Path::new("standard input"), Box::new(BufReader::new(io::stdin())));
    }
    let file = File::open(path).map_err(|error| Fault::of_file(path, "read", &error))?;
    let record = Record::of_input(path, Box::new(BufReader::with_capacity(1 << 16, file)))?;
    Ok(Record { file: Some(path.to_path_buf()), ..record })
}

impl Record {
    /// Reads a record from anywhere; `file` is its name in faults.
    pub fn of_input(file: &Path, mut input: Box<dyn BufRead + Send>) -> Result<Record, Fault> {
        let form = form(first_bytes(&mut input).map_err(|error| Fault::of_file(file, "read", &error))?);
        let statements = match form {
            Form::Text => Statements::Text { reader: scripts::reader::Reader::of_input(file, input), failed: None },
            Form::Compact => Statements::Compact(compact::Reader::new(file, input)),
        };
        Ok(Record { file: None, statements })
    }

    /// Sees the images that were given before the record's first statement.
    pub fn given(&mut self, before: &[Statement]) -> Result<(), Fault> {
        match &mut self.statements {
            Statements::Text { reader, .. } => reader.given(before),
            Statements::Compact(reader) => reader.given(before),
        }
    }

    pub fn form(&self) -> Form {
        match self.statements {
            Statements::Text { .. } => Form::Text,
            Statements::Compact(_) => Form::Compact,
        }
    }

    /// The next statement; none at the end of a record that is whole. After a stop there is the same stop again, and never an end.
    #[allow(clippy::should_implement_trait, reason = "an iterator's end could be taken for a record's")]
    pub fn next(&mut self) -> Result<Option<Statement>, Stop> {
        match &mut self.statements {
            Statements::Compact(reader) => reader.next(),
            Statements::Text { failed: Some(fault), .. } => Err(Stop::Bad(fault.clone())),
            Statements::Text { reader, failed } => reader.next().transpose().map_err(|fault| {
                *failed = Some(fault.clone());
                Stop::Bad(fault)
            }),
        }
    }

    /// The next statement, if it is at hand and an event or a word sent; else it is for `next`.
    #[inline(always)]
    pub fn common(&mut self) -> Option<(Place, Common)> {
        match &mut self.statements {
            Statements::Compact(reader) => reader.common(),
            Statements::Text { .. } => None,
        }
    }

    /// How many bytes were read so far.
    pub fn bytes(&self) -> u64 {
        match &self.statements {
            Statements::Text { reader, .. } => reader.bytes(),
            Statements::Compact(reader) => reader.bytes(),
        }
    }

    /// Every file that was read so far: the record, and the scripts and images that a text names.
    pub fn files(&self) -> Vec<PathBuf> {
        let named = match &self.statements {
            Statements::Text { reader, .. } => reader.files(),
            Statements::Compact(_) => &[],
        };
        self.file.iter().chain(named).cloned().collect()
    }
}
