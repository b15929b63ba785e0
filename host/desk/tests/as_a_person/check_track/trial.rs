//! The trial desk's failure: the records of `examples/trial`, which are made here, and what is said of them.

use crate::folder::{examples, hexadecimal, Folder};
use desk::chip::device::Device;
use desk::chip::machine::Machine;
use desk::scripts::reader::Reader;
use desk::scripts::statement::{Action, Fill};
use std::fmt::Write;
use std::path::{Path, PathBuf};

/// With this variable set the test writes the records of `examples/trial` anew.
const RENEW: &str = "RENEW_RECORDS";

pub const SAMPLES: usize = 48;

/// The gains of `preset.desk`.
const GAINS: [i16; 3] = [29491, 16384, 13107];

/// What comes in at one turn.
struct Turn {
    channels: [i16; 3],
    room: i16,
}

/// Booth, floor and relay are three tones, the first two at nearly full scale; the room is a faint hum.
fn turn(at: usize) -> Turn {
    Turn {
        channels: [tone(at + 12, 37, 32000), tone(at, 11, 31000), tone(at + 5, 23, 12000)],
        room: tone(at + 3, 53, 900) + tone(at + 1, 5, 90),
    }
}

/// The same with tones at half the level, so that their mix is nowhere held.
fn softer_turn(at: usize) -> Turn {
    let Turn { channels, room } = turn(at);
    Turn { channels: channels.map(|word| word / 2), room }
}

/// A triangle of so many samples between its level and the opposite of it.
fn tone(at: usize, period: usize, level: i64) -> i16 {
    let (place, period) = (((at % period) * 4) as i64, period as i64);
    let height = if place < 2 * period { place - period } else { 3 * period - place };
    (height * level / period) as i16
}

/// The mix by exact arithmetic: each product rounded down, the sum held within 16 bits.
fn mix(inputs: [i16; 3]) -> u16 {
    let sum: i64 = inputs.iter().zip(GAINS).map(|(input, gain)| (i64::from(*input) * i64::from(gain)).div_euclid(32768)).sum();
    sum.clamp(-32768, 32767) as i16 as u16
}

pub fn mix_of_channels(at: usize) -> u16 {
    mix(turn(at).channels)
}

fn mix_of_room(at: usize) -> u16 {
    mix([turn(at).room; 3])
}

/// A desk to record on: the emulator, or the emulator with the trial desk's fault.
type Desk = fn(&mut emulator::Registers, &[u32], &[u16], &mut [u16], u32, u32) -> emulator::Reply;

fn trial_examples() -> PathBuf {
    examples().join("trial")
}

/// A machine with the program and the preset of the trial.
fn prepared() -> Machine {
    let mut machine = Machine::default();
    for statement in Reader::of_files(&["channels.desk", "preset.desk"].map(|name| trial_examples().join(name))) {
        let Action::Fill(Fill { memory, from, values, .. }) = statement.expect("a script of the trial").action else {
            panic!("the scripts of the trial hold images only")
        };
        machine.fill(memory, from, &values);
    }
    machine
}

/// Records so many turns on a desk.
fn recorded(title: &str, desk: Desk, samples: usize, turn: fn(usize) -> Turn) -> String {
    let Machine { program, rom, mut ram, .. } = prepared();
    let mut registers = emulator::Registers::default();
    let mut text = format!("# {title}\ninclude channels.desk\ninclude preset.desk\nrate 48000\nsources booth floor relay room\n");
    let mut event = |text: &mut String, kind: u32, line: String, value: u32| {
        let reply = desk(&mut registers, &program, &rom, ram.of_mut(Device::Upd77p20), kind, value);
        assert_eq!(reply.number, 0, "{line}");
        writeln!(text, "{line}").expect("a line");
        reply.value
    };
    for at in 0..samples {
        writeln!(text, "\n# sample {at}: booth, floor, relay, the room").expect("a line");
        let Turn { channels, room } = turn(at);
        for (word, run) in channels.into_iter().chain([room]).zip([8, 8, 8, 24]) {
            event(&mut text, 4, format!("in {}", hexadecimal(word as u16)), u32::from(word as u16));
            event(&mut text, 0, format!("run {run}"), run);
        }
        let sent = event(&mut text, 5, "out".to_string(), 0);
        writeln!(text, "sent {}", hexadecimal(sent)).expect("a line");
    }
    writeln!(text, "\nsamples {samples}").expect("a line");
    text
}

/// A track of so many samples as the chip sends it.
pub fn good(samples: usize) -> String {
    recorded("A track.", emulator::event, samples, turn)
}

fn trial_record() -> String {
    recorded("Recorded on the trial desk, which changes the row before the move of the same word.", emulator::trial::event, SAMPLES, turn)
}

fn good_record() -> String {
    recorded("The events of trial.record, with the words that the chip sends.", emulator::event, SAMPLES, turn)
}

/// The line, counted from 1, of a sample's `sent`.
pub fn line_of_sample(record: &str, sample: usize) -> usize {
    let sents = record.lines().enumerate().filter(|(_, line)| line.starts_with("sent "));
    sents.map(|(at, _)| at + 1).nth(sample).expect("a sample")
}

/// The record with another word sent at a sample.
pub fn with_sent(record: &str, sample: usize, word: u16) -> String {
    let changed = line_of_sample(record, sample);
    let lines = record.lines().zip(1..);
    lines.map(|(line, at)| if at == changed { format!("sent {}\n", hexadecimal(word)) } else { format!("{line}\n") }).collect()
}

impl Folder {
    /// A folder with the scripts that the records of the trial include.
    pub fn with_trial() -> Folder {
        let folder = Folder::new();
        folder.copy_example("trial/channels.desk");
        folder.copy_example("trial/preset.desk");
        folder
    }

    /// The same, with the records.
    fn with_trial_records() -> Folder {
        Folder::with_trial().with("trial.record", trial_record()).with("good.record", good_record())
    }
}

fn sent_words(record: &Path) -> Vec<u16> {
    let statements = Reader::of_files(&[record.to_path_buf()]).map(|statement| statement.expect("a statement"));
    statements.filter_map(|statement| if let Action::Sent { word } = statement.action { Some(word) } else { None }).collect()
}

#[test]
fn the_records_of_the_trial_are_those_made_here() {
    for (name, text) in [("trial.record", trial_record()), ("good.record", good_record())] {
        let kept = trial_examples().join(name);
        if std::env::var_os(RENEW).is_some() {
            std::fs::write(&kept, &text).expect("the record is renewed");
        }
        let same = std::fs::read_to_string(&kept).ok() == Some(text);
        assert!(same, "{} is not the record made here: renew it by {RENEW}=1 cargo test -p desk the_records", kept.display());
    }
}

#[test]
fn what_the_chip_sends_is_the_mix_of_the_channels() {
    let sent = sent_words(&trial_examples().join("good.record"));
    assert_eq!(sent, (0..SAMPLES).map(mix_of_channels).collect::<Vec<u16>>());
    let held = sent.iter().filter(|word| [0x7fff, 0x8000].contains(*word)).count();
    assert!(held > 0 && held < SAMPLES / 2, "{held} samples are held");
}

#[test]
fn what_the_trial_desk_sent_is_the_mix_of_the_room() {
    let sent = sent_words(&trial_examples().join("trial.record"));
    assert_eq!(sent, (0..SAMPLES).map(mix_of_room).collect::<Vec<u16>>());
}

#[test]
fn the_good_record_agrees() {
    Folder::with_trial_records().check("good.record").is("agrees", "48 samples (0:00:00.001), all as the chip sends them");
}

#[test]
fn the_trial_record_differs_at_its_first_sample() {
    let checked = Folder::with_trial_records().check("trial.record");
    let (desk, chip, line) = (hexadecimal(mix_of_room(0)), hexadecimal(mix_of_channels(0)), line_of_sample(&trial_record(), 0));
    let first = format!("from 0:00:00.000 (sample 0) on; at the first of these samples the desk sent {desk}, the chip sends {chip} (trial.record:{line}:1); ");
    checked.begins("differs", &format!("{first}48 of 48 samples differ, by "));
}

/// An hour was lost so. A thousandth of a second is too short to tell the sources; a fiftieth is not.
#[test]
fn the_source_on_the_track_of_the_trial_desk_is_named() {
    let folder = Folder::with_trial();
    let checked = folder.check_text(&recorded("The room.", emulator::trial::event, 960, softer_turn));
    checked.says("differs", "; 960 of 960 samples differ, by ");
    checked.says("differs", "; room is on it in place of booth, floor and relay");
}

#[test]
fn the_records_of_the_examples_are_judged_where_they_stand() {
    let good = Folder::new().desk_of(&["check-track", trial_examples().join("good.record").to_str().expect("text")]);
    assert_eq!(good.status, 0, "{good:?}");
    let trial = Folder::new().desk_of(&["check-track", trial_examples().join("trial.record").to_str().expect("text")]);
    assert_eq!(trial.status, 1, "{trial:?}");
}
