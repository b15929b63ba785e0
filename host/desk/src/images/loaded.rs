//! An image from its file: the whole text, and what the proved loader makes of it.

use super::{preset, refused, Image};
use crate::fault::Fault;
use crate::files;
use bemulatsho::Loading;
use std::io::Read;
use std::path::Path;

/// Most bytes of a text: with one byte a record an image has some thirty thousand.
const LARGEST: u64 = 1 << 24;

/// The words or cells of an image from what its file holds.
pub fn read(image: Image, file: &Path, input: impl Read) -> Result<Vec<u32>, Fault> {
    load(image, file, &text(file, input)?)
}

/// The text of an image; `file` is its name in faults.
pub fn text(file: &Path, input: impl Read) -> Result<Vec<u8>, Fault> {
    files::read_at_most(LARGEST, file, input, "an image in Intel HEX")
}

/// The words or cells of an image from its text; `file` is its name in faults.
pub fn load(image: Image, file: &Path, text: &[u8]) -> Result<Vec<u32>, Fault> {
    let taken = |loading: Loading| match loading.number {
        0 => Ok(()),
        _ => Err(refused::fault(image, file, text, loading)),
    };
    match image {
        Image::Program => {
            let mut words = vec![0; bemulatsho::WORDS];
            taken(bemulatsho::load_program(text, &mut words)).map(|()| words)
        }
        Image::Data => {
            let mut cells = vec![0; bemulatsho::CELLS];
            taken(bemulatsho::load_data(text, &mut cells)).map(|()| cells.into_iter().map(u32::from).collect())
        }
        Image::Preset => preset::load(file, text).map(|ram| ram.map(u32::from).to_vec()),
    }
}
