//! Sound: WAV files as streams, and levels.

pub mod levels;
pub mod wav;
