//! A script that is played: read once through before its first statement is carried out, so that a bad one does nothing. What cannot be
//! read twice, as a pipe, is held whole.

use crate::fault::Fault;
use crate::files::is_standard;
use crate::records::{self, Record};
use crate::scripts::given::Images;
use crate::scripts::statement::Statement;
use std::fs;
use std::path::{Path, PathBuf};

pub type Statements = Box<dyn Iterator<Item = Result<Statement, Fault>>>;

pub struct Script {
    pub statements: Statements,
    /// Every file that they are read from.
    pub files: Vec<PathBuf>,
}

/// The statements of a script or record behind those of the images, each of which `look` has seen before; `-` is standard input.
pub fn checked(name: &str, images: &Images, mut look: impl FnMut(&Statement)) -> Result<Script, Fault> {
    let path = Path::new(name);
    let given = images.statements()?;
    given.iter().for_each(&mut look);
    let held = is_standard(path) || !can_be_read_twice(path);
    let mut whole = Vec::new();
    let mut record = opened(path, &given)?;
    while let Some(statement) = record.next().map_err(|stop| stop.fault())? {
        look(&statement);
        if held {
            whole.push(Ok(statement));
        }
    }
    let named = record.files();
    let behind: Statements = match named.iter().find(|file| !can_be_read_twice(file)) {
        _ if held => Box::new(whole.into_iter()),
        Some(file) => return Err(Fault::bad(format!("{}: named in a script, and can be read only once: expected a file", file.display()))),
        None => statements(opened(path, &given)?),
    };
    let files = [path.to_path_buf()].into_iter().chain(images.files().cloned()).chain(named).collect();
    Ok(Script { statements: Box::new(given.into_iter().map(Ok).chain(behind)), files })
}

fn opened(path: &Path, given: &[Statement]) -> Result<Record, Fault> {
    let mut record = records::open(path)?;
    record.given(given)?;
    Ok(record)
}

/// A file that is not there is read to be told so.
fn can_be_read_twice(path: &Path) -> bool {
    fs::metadata(path).map_or(true, |found| found.is_file())
}

fn statements(mut record: Record) -> Statements {
    let mut ended = false;
    Box::new(std::iter::from_fn(move || {
        if ended {
            return None;
        }
        let next = record.next().map_err(|stop| stop.fault()).transpose();
        ended = !matches!(next, Some(Ok(_)));
        next
    }))
}
