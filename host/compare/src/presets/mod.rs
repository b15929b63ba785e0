//! Presets there and back: the proved writer against the second one, character by character, and both readers on what was written.

mod met;
mod rams;
mod trip;

use bemulatsho::RAM;
use met::Met;
use random::Random;
use trip::Trip;

/// One RAM in so many is also lent with a buffer that is too short, and one with another length.
const REFUSED: u64 = 4;

/// Writes and reads back so many RAMs; what was met comes with the answer. A difference is told with the seed of its RAM.
pub fn compare(seed: u64, presets: u64, progress: impl Fn(u64)) -> Result<Met, String> {
    let mut met = Met::new();
    let mut trip = Trip::new();
    let mut ram = [0; RAM];
    for number in 0..presets {
        let own = seed.wrapping_add(number);
        let random = &mut Random::new(own);
        rams::fill(random, number, &mut ram);
        met.ram(rams::shape(number), &ram);
        one(&mut trip, random, number, &ram, &mut met)
            .map_err(|what| format!("preset {number} of seed {seed}, a RAM of {:?}: {what}\n{ram:04X?}", rams::shape(number)))?;
        progress(number + 1);
    }
    let missing = met.missing();
    match missing.is_empty() {
        true => Ok(met),
        false => Err(format!("{presets} presets never met: {}", missing.join(", "))),
    }
}

fn one(trip: &mut Trip, random: &mut Random, number: u64, ram: &[u16; RAM], met: &mut Met) -> Result<(), String> {
    trip.go(random, ram, met)?;
    match number % REFUSED {
        0 => trip.short_buffer(random, ram, met),
        1 => trip.other_ram(random, met),
        _ => Ok(()),
    }
}
