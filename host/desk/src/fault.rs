//! What went wrong, and where: a file, a line and a column, the text that stands there and what was expected instead.

use std::fmt;
use std::path::Path;

/// A place in a script, record or image. The name of a file lives as long as the program, so that a place costs nothing to keep.
#[derive(Clone, Copy, Debug, PartialEq, Eq)]
pub struct Place {
    pub file: &'static Path,
    pub spot: Spot,
}

/// Where in the file, counted from 1 as editors count: by line in a text, by statement in a compact record.
#[derive(Clone, Copy, Debug, PartialEq, Eq)]
pub enum Spot {
    Line { line: u64, column: usize },
    WholeLine(u64),
    Statement(u64),
    WholeFile,
}

/// Keeps a file's name for the places in it.
pub fn named(file: &Path) -> &'static Path {
    Box::leak(file.to_path_buf().into_boxed_path())
}

impl fmt::Display for Place {
    fn fmt(&self, f: &mut fmt::Formatter) -> fmt::Result {
        write!(f, "{}", self.file.display())?;
        match self.spot {
            Spot::Line { line, column } => write!(f, ":{line}:{column}"),
            Spot::WholeLine(line) => write!(f, ":{line}"),
            Spot::Statement(number) => write!(f, ": statement {number}"),
            Spot::WholeFile => Ok(()),
        }
    }
}

/// Whether a script or check failed, or the use or the input was bad: exit status 1 or 2.
#[derive(Clone, Copy, Debug, PartialEq, Eq)]
pub enum Status {
    Failed = 1,
    Bad = 2,
}

#[derive(Clone, Debug, PartialEq, Eq)]
pub struct Fault {
    pub status: Status,
    pub place: Option<Place>,
    pub message: String,
}

impl Fault {
    /// Bad use, or a file that cannot be used at all.
    pub fn bad(message: impl Into<String>) -> Fault {
        Fault { status: Status::Bad, place: None, message: message.into() }
    }

    /// Bad input at a place.
    pub fn bad_at(place: Place, message: impl Into<String>) -> Fault {
        Fault { status: Status::Bad, place: Some(place), message: message.into() }
    }

    /// A check that failed, of no place in a text.
    pub fn failed(message: impl Into<String>) -> Fault {
        Fault { status: Status::Failed, place: None, message: message.into() }
    }

    /// A check that failed at a place.
    pub fn failed_at(place: Place, message: impl Into<String>) -> Fault {
        Fault { status: Status::Failed, place: Some(place), message: message.into() }
    }

    /// A file that could not be read or written.
    pub fn of_file(path: &Path, doing: &str, error: &std::io::Error) -> Fault {
        Fault::bad(format!("{}: cannot {doing}: {error}", path.display()))
    }
}

impl fmt::Display for Fault {
    fn fmt(&self, f: &mut fmt::Formatter) -> fmt::Result {
        if let Some(place) = self.place {
            write!(f, "{place}: ")?;
        }
        f.write_str(&self.message)
    }
}
