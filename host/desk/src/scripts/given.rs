//! Images that are given before a script's own statements, each as a statement that fills its memory.

use crate::fault::{self, Fault, Place, Spot};
use crate::images::{self, Image};
use crate::scripts::statement::{Action, Fill, Statement};
use std::fs::File;
use std::io::Read;
use std::path::{Path, PathBuf};

/// The files of the images.
#[derive(Clone, Debug, Default, PartialEq, Eq)]
pub struct Images {
    pub program: Option<PathBuf>,
    pub data: Option<PathBuf>,
    pub preset: Option<PathBuf>,
}

impl Images {
    fn named(&self) -> impl Iterator<Item = (Image, &PathBuf)> {
        let files = [(Image::Program, &self.program), (Image::Data, &self.data), (Image::Preset, &self.preset)];
        files.into_iter().filter_map(|(image, file)| Some((image, file.as_ref()?)))
    }

    pub fn files(&self) -> impl Iterator<Item = &PathBuf> {
        self.named().map(|(_, file)| file)
    }

    /// Loads each of them.
    pub fn statements(&self) -> Result<Vec<Statement>, Fault> {
        let load = |(image, file): (Image, &PathBuf)| {
            let input = File::open(file).map_err(|error| Fault::of_file(file, "read", &error))?;
            statement(image, file, input)
        };
        self.named().map(load).collect()
    }
}

/// An image that no statement of a script names: its place is its file.
pub fn statement(image: Image, file: &Path, input: impl Read) -> Result<Statement, Fault> {
    let action = filled(image, false, file, input)?;
    Ok(Statement { place: Place { file: fault::named(file), spot: Spot::WholeFile }, action })
}

/// What an image does to a machine: it fills a memory from beginning to end.
pub fn filled(image: Image, patch: bool, file: &Path, input: impl Read) -> Result<Action, Fault> {
    let values = images::read(image, file, input)?;
    Ok(Action::Fill(Fill { memory: image.memory(), from: 0, values, patch }))
}
