//! Tracks of ten seconds for tests, at 8000 samples a second: booth, floor, relay and the room, mixed by the gains of the examples.

use crate::chip::machine::Machine;
use crate::chip::state::State;
use crate::fault::{named, Fault, Place, Spot};
use crate::tracks::findings::{Chip, Findings, Stretch};
use random::Random;
use std::path::Path;

pub const RATE: u32 = 8000;
pub const LENGTH: u64 = 80_000;
const ASKED: [f64; 4] = [0.5, 0.25, 0.355, 0.0];

/// Noise of its own for each seed.
pub struct Noise(Random);

impl Noise {
    pub fn new(seed: u64) -> Noise {
        Noise(Random::new(seed))
    }

    pub fn sample(&mut self) -> i16 {
        self.0.word() as i16 >> 2
    }
}

/// A track of so many samples; what is sent follows from the sample's number, the words in and what the chip sends.
pub fn track(name: &str, length: u64, sent: impl Fn(u64, &[i16; 4], i16) -> i16) -> Findings {
    let mut findings = Findings::new(name);
    (findings.rate, findings.length) = (Some(RATE), Some(LENGTH));
    findings.sources = ["booth", "floor", "relay", "room"].map(String::from).to_vec();
    let mut sources = [Noise::new(1), Noise::new(2), Noise::new(3), Noise::new(4)];
    let file = named(Path::new("evening/x.record"));
    for at in 0..length {
        let inputs = [0, 1, 2, 3].map(|source: usize| sources[source].sample());
        let chip = mixed(&inputs, &ASKED);
        let place = Place { file, spot: Spot::Line { line: 10 * at + 5, column: 1 } };
        findings.sample(&inputs, Chip::Sends(chip as u16), sent(at, &inputs, chip) as u16, Some(place));
    }
    findings.end();
    findings
}

pub fn mixed(inputs: &[i16; 4], gains: &[f64; 4]) -> i16 {
    inputs.iter().zip(gains).map(|(input, gain)| f64::from(*input) * gain).sum::<f64>().floor() as i16
}

pub fn right(name: &str) -> Findings {
    track(name, LENGTH, |_, _, chip| chip)
}

pub fn silent(name: &str) -> Findings {
    let mut findings = Findings::new(name);
    findings.rate = Some(RATE);
    for _ in 0..LENGTH {
        findings.sample(&[0, 0], Chip::Sends(0), 0, None);
    }
    findings.end();
    findings
}

pub fn flipped(name: &str, sample: u64) -> Findings {
    track(name, LENGTH, |at, _, chip| if at == sample { chip ^ 1 } else { chip })
}

/// Every sample for which something holds is off by a little.
pub fn disturbed(name: &str, holds: impl Fn(u64) -> bool) -> Findings {
    track(name, LENGTH, |at, _, chip| if holds(at) { chip.wrapping_add(3) } else { chip })
}

pub fn exchanged(name: &str, from: u64) -> Findings {
    track(name, LENGTH, |at, inputs, chip| if at < from { chip } else { mixed(inputs, &[0.25, 0.5, 0.355, 0.0]) })
}

/// The trial desk's fault, with what an engineer looks for.
pub fn trial(name: &str) -> Findings {
    let mut findings = track(name, LENGTH, |_, inputs, _| mixed(inputs, &[0.0, 0.0, 0.0, 1.1]));
    let mut before = State::of(&Machine::default());
    before.held.registers.pc = 0x00d;
    let lines = ["     1  00DH  600004H  LDI @DP,00H", "     2  00FH  0002F3H  MOV @TR,MEM M1    TR E273H  DP 10H"].map(String::from);
    findings.stretch = Some(Stretch { before, words: 24, lines: lines.to_vec() });
    findings
}

pub fn cut(name: &str, length: u64) -> Findings {
    let mut findings = track(name, length, |_, _, chip| chip);
    findings.missing = Some("the record ends".to_string());
    findings
}

pub fn unreadable(name: &str) -> Findings {
    let mut findings = Findings::new(name);
    findings.unreadable = Some(Fault::bad("tracks/x.wav: no sound file: expected RIFF"));
    findings
}
