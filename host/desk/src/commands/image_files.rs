//! Images on the command line: files, of which one may be standard input.

use crate::commands::arguments::Arguments;
use crate::fault::Fault;
use crate::files::is_standard;
use crate::images;
use std::fs::File;
use std::io;
use std::path::Path;

/// The files of a command that has no options.
pub fn files<'a>(arguments: &mut Arguments<'a>) -> Result<Vec<&'a Path>, Fault> {
    let files: Vec<&Path> = arguments.only_files()?.into_iter().map(Path::new).collect();
    arguments.standard_input_once(files.iter().copied())?;
    Ok(files)
}

/// What a file is called where something is told of it.
pub fn called(file: &Path) -> &Path {
    match is_standard(file) {
        true => Path::new("standard input"),
        false => file,
    }
}

pub fn text(file: &Path) -> Result<Vec<u8>, Fault> {
    if is_standard(file) {
        return images::text(called(file), io::stdin());
    }
    images::text(file, File::open(file).map_err(|error| Fault::of_file(file, "read", &error))?)
}
