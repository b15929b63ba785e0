//! `desk example`: three tones, mixed by the scripts in examples/mixing, and the track held against exact arithmetic.

use crate::commands::arguments::{Argument, Arguments};
use crate::commands::mix::{self, Order};
use crate::fault::Fault;
use crate::files;
use crate::numbers;
use crate::output::Output;
use crate::scripts::given::Images;
use crate::scripts::reader::Reader;
use crate::sound::levels;
use crate::sound::wav::{self, Sound};
use crate::tracks::prepared::prepared;
use std::f64::consts::TAU;
use std::fs;
use std::path::{Path, PathBuf};

/// A source of the example: the name of its file, and its tone.
struct Tone {
    file: &'static str,
    hertz: u32,
    amplitude: f64,
}

/// In the order of the gains in the preset. At those gains their sum stays inside 16 bits.
const TONES: [Tone; 3] = [
    Tone { file: "booth.wav", hertz: 440, amplitude: 30000.0 },
    Tone { file: "floor.wav", hertz: 1000, amplitude: 30000.0 },
    Tone { file: "relay.wav", hertz: 2600, amplitude: 20000.0 },
];

const RATE: u32 = 8000;
const SECONDS: u32 = 2;

const SCRIPTS: [(&str, &str); 2] = [
    ("mixing.desk", include_str!("../../../../examples/mixing/mixing.desk")),
    ("preset.desk", include_str!("../../../../examples/mixing/preset.desk")),
];

const USE: &str = "expected `desk example FOLDER`";

/// The part that rounding down may take from each source, in 32768ths.
const BELOW: i64 = 32767;

pub fn command(arguments: &[String]) -> Result<(), Fault> {
    let folder = Path::new(folder(arguments)?);
    let order = written(folder)?;
    let mixed = mix::mix(&order)?;
    let mut output = Output::new();
    output.line(&mixed.summary(&order.track))?;
    let (sources, gains, track) = read_back(&order)?;
    for line in table(&sources, &gains, &track) {
        output.line(&line)?;
    }
    let largest = largest_distance(&order.track, &sources, &gains, &track)?;
    output.line(&format!("largest distance from the exact mix: {largest}/32768 of a step; the bound is {}/32768", bound(&sources)))?;
    output.line(&format!("clipped samples: {} of {}", mixed.clipped, mixed.samples))?;
    output.line("the track is what exact arithmetic allows")?;
    output.flush()
}

fn folder(arguments: &[String]) -> Result<&str, Fault> {
    let mut arguments = Arguments::new(USE, arguments);
    match (arguments.next(), arguments.next()) {
        (Some(Argument::File(folder)), None) => Ok(folder),
        (Some(Argument::Option(option)), _) | (_, Some(Argument::Option(option))) => Err(arguments.unknown(option)),
        _ => Err(arguments.bad("one folder")),
    }
}

/// Writes the tones and the scripts into a folder.
fn written(folder: &Path) -> Result<Order, Fault> {
    fs::create_dir_all(folder).map_err(|error| Fault::of_file(folder, "make the folder", &error))?;
    let (track, record) = (folder.join("track.wav"), Some(folder.join("track.record")));
    let mut order = Order { images: Images::default(), scripts: Vec::new(), sources: Vec::new(), track, record };
    for tone in &TONES {
        order.sources.push(written_file(folder, tone.file, &wav::bytes(&sound(tone)))?);
    }
    for (name, text) in SCRIPTS {
        order.scripts.push(written_file(folder, name, text.as_bytes())?);
    }
    Ok(order)
}

fn written_file(folder: &Path, name: &str, bytes: &[u8]) -> Result<PathBuf, Fault> {
    let path = folder.join(name);
    files::write_whole(&path, bytes)?;
    Ok(path)
}

fn sound(tone: &Tone) -> Sound {
    let turn = TAU * f64::from(tone.hertz) / f64::from(RATE);
    let samples = (0..RATE * SECONDS).map(|at| (tone.amplitude * (turn * f64::from(at)).sin()).round() as i16);
    Sound { rate: RATE, samples: samples.collect() }
}

fn read(file: &Path) -> Result<Sound, Fault> {
    wav::parse(file, &fs::read(file).map_err(|error| Fault::of_file(file, "read", &error))?)
}

/// The sources, their gains and the track, all as they stand in the files.
fn read_back(order: &Order) -> Result<(Vec<Sound>, Vec<i16>, Sound), Fault> {
    let sources = order.sources.iter().map(|file| read(file)).collect::<Result<Vec<Sound>, Fault>>()?;
    let preset = prepared(&order.images, Reader::of_files(&order.scripts), &mut Vec::new())?.machine;
    let gains = preset.cells().iter().take(sources.len()).map(|gain| *gain as i16).collect();
    Ok((sources, gains, read(&order.track)?))
}

/// Which source is on the track, and how loud: a heading and a line for each.
fn table(sources: &[Sound], gains: &[i16], track: &Sound) -> Vec<String> {
    let mut lines = vec![format!("{:<10} {:>8} {:>7} {:>7} {:>10} {:>10} {:>10}", "source", "tone", "gain", "", "", "expected", "found")];
    for ((tone, source), gain) in TONES.iter().zip(sources).zip(gains) {
        let ratio = f64::from(*gain) / levels::FULL_SCALE;
        let gain_level = levels::decibels(ratio);
        lines.push(format!(
            "{:<10} {:>8} {:>7} {:>7.4} {:>10} {:>10} {:>10}",
            tone.file,
            format!("{} Hz", tone.hertz),
            numbers::register(*gain as u16),
            ratio,
            levels::print(gain_level),
            levels::print(levels::of_tone(source, tone.hertz) + gain_level),
            levels::print(levels::of_tone(track, tone.hertz))
        ));
    }
    lines
}

/// How far below the exact mix a sample of the track is at most, in 32768ths; or the first sample that is farther, or above it.
fn largest_distance(file: &Path, sources: &[Sound], gains: &[i16], track: &Sound) -> Result<i64, Fault> {
    let failed = |message: String| Fault::failed(format!("{}: {message}", file.display()));
    let length = sources.iter().map(|source| source.samples.len()).max().unwrap_or(0);
    if track.samples.len() != length {
        return Err(failed(format!("{} samples: expected {length}", track.samples.len())));
    }
    let mut largest = 0;
    for (at, sent) in track.samples.iter().enumerate() {
        let exact = exact(sources, gains, at);
        let distance = exact - i64::from(*sent) * 32768;
        if !(0..=bound(sources)).contains(&distance) {
            return Err(failed(format!(
                "sample {at}: {sent} was sent and the exact mix is {exact}/32768, a distance of {distance}/32768: expected 0 to {}/32768",
                bound(sources)
            )));
        }
        largest = largest.max(distance);
    }
    Ok(largest)
}

fn bound(sources: &[Sound]) -> i64 {
    BELOW * sources.len() as i64
}

/// The exact mix at a sample, in 32768ths, held within 16 bits.
fn exact(sources: &[Sound], gains: &[i16], at: usize) -> i64 {
    let sample = |source: &Sound| i64::from(source.samples.get(at).copied().unwrap_or(0));
    let products = sources.iter().zip(gains).map(|(source, gain)| sample(source) * i64::from(*gain));
    products.sum::<i64>().clamp(-32768 * 32768, 32767 * 32768)
}

#[cfg(test)]
mod tests {
    use super::*;

    fn sound(samples: &[i16]) -> Sound {
        Sound { rate: RATE, samples: samples.to_vec() }
    }

    #[test]
    fn the_first_sample_above_or_too_far_below_is_told() {
        let sources = [sound(&[100, 100, -32768]), sound(&[1, 1])];
        let gains = [16384, 32767];
        let file = Path::new("track.wav");
        let judged = |track: &[i16]| largest_distance(file, &sources, &gains, &sound(track)).map_err(|fault| fault.message);
        assert_eq!(judged(&[50, 50, -16384]), Ok(32767));
        let above = "track.wav: sample 1: 51 was sent and the exact mix is 1671167/32768, a distance of -1/32768";
        let too_far_below = "track.wav: sample 2: -16386 was sent and the exact mix is -536870912/32768, a distance of 65536/32768";
        assert_eq!(judged(&[50, 51, 0]), Err(format!("{above}: expected 0 to 65534/32768")));
        assert_eq!(judged(&[50, 50, -16386]), Err(format!("{too_far_below}: expected 0 to 65534/32768")));
        assert_eq!(judged(&[50, 50]), Err("track.wav: 2 samples: expected 3".to_string()));
    }

    #[test]
    fn the_exact_mix_is_held_at_both_ends() {
        let sources = [sound(&[i16::MAX, i16::MIN]), sound(&[i16::MAX, i16::MIN])];
        assert_eq!(exact(&sources, &[i16::MAX, i16::MAX], 0), 32767 * 32768);
        assert_eq!(exact(&sources, &[i16::MAX, i16::MAX], 1), -32768 * 32768);
        assert_eq!(exact(&sources, &[i16::MAX, i16::MAX], 2), 0);
    }
}
