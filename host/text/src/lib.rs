//! Second readers and a second writer of texts, written from the rules alone; they share no line with the proved crates.

mod alone;
mod digits;
mod form;
mod gather;
mod image;
mod line;
mod load;
mod record;
mod refusal;
mod write;

pub use alone::{read_record, ReadRecord};
pub use form::in_writers_form;
pub use load::{load_data, load_preset, load_program, Outcome};
pub use write::{write_preset, Writing};
