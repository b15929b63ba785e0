//! A preset as the cells of the 77P20's RAM: loaded whole by the proved loader, and as the text that the proved writer makes of them.

use super::{refused, Image};
use crate::chip::device::Device;
use crate::chip::event::refusal;
use crate::fault::Fault;
use bemulatsho::{Loading, Writing, PRESET_TEXT};
use std::path::Path;

pub type Cells = [u16; bemulatsho::RAM];

/// The cells of a preset from its text; `file` is its name in faults.
pub fn load(file: &Path, text: &[u8]) -> Result<Cells, Fault> {
    let mut cells = [0; bemulatsho::RAM];
    match bemulatsho::load_preset(text, &mut cells) {
        Loading { number: 0, .. } => Ok(cells),
        loading => Err(refused::fault(Image::Preset, file, text, loading)),
    }
}

/// The text of a preset with these cells.
pub fn written(cells: &[u16]) -> Result<String, Fault> {
    let mut text = [0; PRESET_TEXT];
    match bemulatsho::write_preset(cells, &mut text) {
        Writing { number: 0, length } => Ok(String::from_utf8_lossy(&text[..length]).into_owned()),
        Writing { number, .. } => Err(Fault::bad(format!("the RAM is no preset: {}", refusal(Device::Upd77p20, number)))),
    }
}
