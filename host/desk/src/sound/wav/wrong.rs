//! What is not as it should be in a sound file, and how it is told.

use super::conversion;
use crate::fault::Fault;
use crate::files::is_standard;
use std::io;
use std::path::Path;

/// What is wrong, with the byte of the file where it is.
pub enum Wrong {
    /// The file ends before its header says that it does, or within a sample.
    Cut(u64, String),
    Broken(u64, String),
    /// A sound, though not in the form that the desk takes.
    OtherForm(u64, String),
    Unreadable(io::Error),
}

impl Wrong {
    pub fn cut(at: u64, what: impl Into<String>) -> Wrong {
        Wrong::Cut(at, what.into())
    }

    pub fn broken(at: u64, what: impl Into<String>) -> Wrong {
        Wrong::Broken(at, what.into())
    }

    pub fn other_form(at: u64, what: impl Into<String>) -> Wrong {
        Wrong::OtherForm(at, what.into())
    }

    pub fn fault(self, file: &Path) -> Fault {
        let name = shown(file);
        let place = |at: u64| format!("{}: at byte {at}", name.display());
        match self {
            Wrong::Cut(at, what) | Wrong::Broken(at, what) => Fault::bad(format!("{}: {what}", place(at))),
            Wrong::OtherForm(at, what) => Fault::bad(format!("{}: {what}; convert it by: {}", place(at), conversion::by_sox(file))),
            Wrong::Unreadable(error) => Fault::of_file(name, "read", &error),
        }
    }
}

impl From<io::Error> for Wrong {
    fn from(error: io::Error) -> Wrong {
        Wrong::Unreadable(error)
    }
}

/// The name of a file in what is told.
pub fn shown(file: &Path) -> &Path {
    if is_standard(file) {
        Path::new("standard input")
    } else {
        file
    }
}
