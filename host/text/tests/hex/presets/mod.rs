//! "Presets that replace everything."

mod buffer;
mod form;
mod half;
mod loaded;
mod ram;
mod ram_length;
mod there_and_back;
mod written;
mod zeros;
