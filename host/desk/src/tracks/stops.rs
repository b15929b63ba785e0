//! A program with stops: an image on which a run ends at a word that takes a sample or sends one, and not a word later.

use crate::chip::device::Device;
use crate::chip::machine::Machine;
use crate::chip::serial::{reads_si, stores_so};
use crate::chip::word::{take_apart, Word};

/// No chip has this word: a run is refused before it with 4, and what it did before stands.
const STOP: u32 = u32::MAX;

/// What one leg of a sample runs on. A run ends before each word that takes or sends a sample, but for the one at which the leg is expected to
/// end: behind that.
pub struct Stops {
    device: Device,
    image: Vec<u32>,
    /// Where the leg is expected to end.
    end: Option<usize>,
}

impl Stops {
    pub fn of(machine: &Machine) -> Stops {
        let device = machine.device();
        Stops { device, image: machine.program.iter().map(|word| stopped(device, *word)).collect(), end: None }
    }

    #[inline]
    pub fn image(&self) -> &[u32] {
        &self.image
    }

    /// The leg is expected to end with the word at this place of the program. A return is never let run: where it goes is not known before.
    pub fn expect(&mut self, program: &[u32], end: usize) {
        if !goes_on(self.device, program[end]) {
            return;
        }
        if let Some(before) = self.end.replace(end) {
            for place in [before, after(before, program)] {
                self.image[place] = stopped(self.device, program[place]);
            }
        }
        self.image[end] = program[end];
        self.image[after(end, program)] = STOP;
    }
}

/// Whether the word behind it runs next, whatever the registers hold.
fn goes_on(device: Device, word: u32) -> bool {
    matches!(take_apart(device, word), Ok(Word::Op(_) | Word::Ldi(_)))
}

fn stopped(device: Device, word: u32) -> u32 {
    if reads_si(device, word) || stores_so(device, word) {
        STOP
    } else {
        word
    }
}

/// The place behind another: PC goes round.
fn after(place: usize, program: &[u32]) -> usize {
    (place + 1) % program.len()
}
