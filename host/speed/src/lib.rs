//! What speed is measured on, how instructions are counted, and a yardstick for the machine.

pub mod assembly;
pub mod instructions;
pub mod machines;
pub mod presets;
pub mod programs;
pub mod texts;
pub mod tracks;
pub mod yardstick;
