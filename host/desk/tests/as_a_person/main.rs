//! The built program as a person uses it: what it prints, what it tells on the standard error, its exit status and its files.

mod check_image;
mod check_track;
mod chips;
mod closed_pipes;
mod convert;
mod example;
mod folder;
#[path = "../held/mod.rs"]
mod held;
mod help;
mod images;
mod memory;
mod mix;
mod presets;
mod progress;
mod run;
mod trace;
mod words;
