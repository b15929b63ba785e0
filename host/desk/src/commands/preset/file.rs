//! A preset from its file, and how much of it is used.

use crate::commands::image_files::{called, text};
use crate::fault::Fault;
use crate::images::preset::{self, Cells};
use std::path::Path;

pub fn read(file: &Path) -> Result<Cells, Fault> {
    preset::load(called(file), &text(file)?)
}

/// How many cells are not 0.
pub fn used(cells: &[u16]) -> usize {
    cells.iter().filter(|cell| **cell != 0).count()
}
