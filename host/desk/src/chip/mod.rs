//! The chip on the bench, one of two: the proved core with what is lent to it, its registers, words and events by name, and its state in print.

pub mod device;
pub mod event;
pub mod machine;
pub mod mnemonics;
pub mod ram;
pub mod registers;
pub mod serial;
pub mod state;
pub mod traced;
pub mod word;
pub mod wrong_chip;
