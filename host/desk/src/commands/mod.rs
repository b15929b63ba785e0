//! The commands, one file each, and how their arguments are read.

pub mod arguments;
pub mod check_image;
pub mod check_track;
mod checked_files;
pub mod convert;
pub mod example;
pub mod help;
mod image_files;
pub mod mix;
pub mod preset;
pub mod run;
pub mod script;
mod tally;
pub mod trace;
pub mod version;
