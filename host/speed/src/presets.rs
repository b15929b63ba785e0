//! How long one preset takes to be loaded, and to be written; beside it the second reader and writer.

use crate::texts::seconds;
use bemulatsho::{PRESET_TEXT, RAM};
use std::hint::black_box;

/// Calls between two looks at the clock, which takes time too.
const CALLS: u32 = 100;

/// Prints microseconds of each, and how many there are in a second.
pub fn table() -> Result<(), String> {
    let ram: [u16; RAM] = std::array::from_fn(|place| (place * 40503) as u16);
    let mut text = [0; PRESET_TEXT];
    if bemulatsho::write_preset(&ram, &mut text).number != 0 {
        return Err("a preset was not written".to_string());
    }
    println!("\npresets, microseconds each (presets a second)");
    println!("{:<34}{:>20}{:>24}", "preset", "core", "second reader, writer");
    let (mut back, mut buffer) = ([0; RAM], [0; PRESET_TEXT]);
    let core = one(|| bemulatsho::load_preset(black_box(&text), &mut back).number == 0);
    let second = one(|| text::load_preset(black_box(&text), &mut back).number == 0);
    println!("{:<34}{core:>20}{second:>24}", "loaded");
    let core = one(|| bemulatsho::write_preset(black_box(&ram), &mut buffer).number == 0);
    let second = one(|| text::write_preset(black_box(&ram), &mut buffer).number == 0);
    println!("{:<34}{core:>20}{second:>24}", "written");
    if back != ram || buffer != text {
        return Err("a preset did not come back as it was".to_string());
    }
    Ok(())
}

/// The time of one call.
fn one(mut call: impl FnMut() -> bool) -> String {
    let together = seconds(|| (0..CALLS).all(|_| call()));
    together.map_or("none".to_string(), |seconds| {
        let one = seconds / f64::from(CALLS);
        format!("{:.2} ({:.0})", one * 1e6, 1.0 / one)
    })
}
