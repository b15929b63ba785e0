//! Every sentence of the rules on Intel HEX and on presets, as one text or more.

mod addresses;
mod character_or_length;
mod check_byte;
mod damaged;
mod ends;
mod good_records;
mod image_length;
mod lent;
mod letters;
mod line_endings;
mod order;
mod places;
mod presets;
mod tools;
mod types;
mod writer;
mod zeros;
