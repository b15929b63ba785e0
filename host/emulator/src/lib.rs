//! A second, independent reading of the rules paper and of change requests E3, E8 and E10. Wide integers and plain code; it shares
//! no line with the proved crates.
//!
//! `event_on` is one call from outside, `step_on` one word, `take_apart_on` and `build_on` go between a word and its fields, each on
//! either chip; `event`, `step`, `take_apart` and `build` are the same on the 77P20. `trial::event` is the call on a 77P20 with the
//! trial desk's fault.

pub mod accumulators;
pub mod alu;
pub mod bits;
pub mod branch;
pub mod bus;
pub mod chip;
pub mod conditions;
pub mod destination;
pub mod device;
pub mod event;
pub mod host;
pub mod jump;
pub mod jump_codes;
pub mod multiplier;
pub mod operand;
pub mod places;
pub mod pointers;
pub mod refusal;
pub mod refusals_of_words;
pub mod registers;
pub mod stack;
pub mod status;
pub mod step;
pub mod trial;
pub mod word;

pub use chip::{Chip, Sizes};
pub use device::{CELLS, RAM, WORDS};
pub use event::{event, event_on, Reply};
pub use registers::{Flags, Registers};
pub use step::{step, step_on};
pub use word::{build, build_on, take_apart, take_apart_on, CodeFields, JpFields, LdiFields, OpFields, Word};
