//! The desk's bench program: scripts, traces, checked tracks and sound on the proved core.

pub mod chip;
pub mod commands;
pub mod fault;
pub mod files;
pub mod images;
pub mod numbers;
pub mod output;
pub mod progress;
pub mod records;
pub mod report;
pub mod scripts;
pub mod sound;
pub mod tracks;
