//! Scripts: what a statement says, how it is read from a text, and how it is carried out and judged.

pub mod given;
pub mod nearest;
pub mod parse;
pub mod player;
pub mod reader;
pub mod seen;
pub mod statement;
pub mod words;
