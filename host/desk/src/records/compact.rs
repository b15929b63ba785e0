//! The compact form of a record: written and read as a stream.

pub use super::reader::{Reader, Stop};
pub use super::writer::Writer;
