//! What change request E10 and section 2 of the data book say about the uPD77C25, with every expected value worked out by hand.

pub mod assemble;
mod both_chips;
mod destinations;
mod how_many_words;
mod jump_codes;
pub mod machine;
mod order_of_refusals;
mod pointers;
mod refusals_of_words;
mod sizes;
mod sources;
mod temporary_register_b;
mod words_and_fields;
