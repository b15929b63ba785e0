//! A track as sound: its sources go through the program again, and each sample is held against the sound that was sent.

use crate::chip::event::Event;
use crate::fault::Fault;
use crate::progress::Meter;
use crate::scripts::given::Images;
use crate::scripts::reader::Reader;
use crate::sound::wav::{self, Tail};
use crate::tracks::findings::{Chip, Findings, Stretch};
use crate::tracks::inputs::Inputs;
use crate::tracks::mixer::{Mixer, MOST_SOURCES};
use crate::tracks::prepared::{prepared, Prepared};
use crate::tracks::stretch::Since;
use bemulatsho::kind;
use std::io::Read;
use std::path::{Path, PathBuf};

/// The images that the program is given first; its scripts and the preset's, of which one may be an image of the program; the sources in their
/// order, and what was sent.
#[derive(Clone, Debug, PartialEq, Eq)]
pub struct Sounds {
    pub images: Images,
    pub scripts: Vec<PathBuf>,
    pub sources: Vec<PathBuf>,
    pub sent: PathBuf,
}

/// Checks one track.
pub fn check(name: &str, sounds: &Sounds, meter: &Meter) -> Findings {
    let mut findings = Findings::new(name);
    findings.sources = sounds.sources.iter().map(|file| source_name(file)).collect();
    if let Err(fault) = compare(sounds, &mut findings, meter) {
        findings.unreadable = Some(fault);
    }
    findings.end();
    findings
}

/// What a source is called: its file's name without the ending.
pub fn source_name(file: &Path) -> String {
    file.file_stem().unwrap_or(file.as_os_str()).to_string_lossy().replace('"', "'")
}

fn compare(sounds: &Sounds, findings: &mut Findings, meter: &Meter) -> Result<(), Fault> {
    findings.files = sounds.sources.iter().chain([&sounds.sent]).cloned().collect();
    let Prepared { machine, .. } = prepared(&sounds.images, Reader::of_files_or_images(&sounds.scripts), &mut findings.files)?;
    findings.of_chip(machine.device());
    let mut inputs = Inputs::open(&sounds.sources)?;
    let mut sent = wav::open(&sounds.sent)?;
    inputs.same_rate(&sounds.sent, sent.rate())?;
    findings.rate = Some(inputs.rate);
    findings.length = inputs.stated();
    let mut mixer = Mixer::new(machine, inputs.count());
    let mut row = [0; MOST_SOURCES];
    let row = &mut row[..inputs.count().min(MOST_SOURCES)];
    loop {
        if findings.samples.is_multiple_of(4096) {
            meter.at(findings.samples * 2 * (inputs.count() as u64 + 1));
        }
        let more = match inputs.next(row) {
            Ok(more) => more,
            Err(tail) => return cut(findings, tail),
        };
        let word = match sent.next() {
            Ok(word) => word,
            Err(tail) => return cut(findings, tail),
        };
        let Some(word) = word.filter(|_| more) else {
            lengths(findings, &mut inputs, &mut sent, more, word)?;
            findings.notes.extend(inputs.remarks());
            return Ok(());
        };
        if !one_sample(findings, &mut mixer, row, word)? {
            return Ok(());
        }
    }
}

/// Plays one sample and compares it; false if the program does not go on. A program that does not even begin is not one for these sources.
#[inline]
fn one_sample(findings: &mut Findings, mixer: &mut Mixer, row: &[i16], word: i16) -> Result<bool, Fault> {
    let kept = if findings.first.is_none() { Some(Since::new(&mixer.machine)) } else { None };
    match mixer.sample(row) {
        Ok(chip) => {
            if findings.sample(row, Chip::Sends(chip as u16), word as u16, None) {
                findings.stretch = kept.and_then(|since| again(since, mixer, row));
            }
            Ok(true)
        }
        Err((_, halt)) if findings.samples == 0 => {
            Err(Fault::bad(format!("the program does not run with these sources: {}", halt.told(&mixer.machine))))
        }
        Err((_, halt)) => {
            let sample = findings.samples;
            findings.failed = Some(Fault::failed(format!("sample {sample}: {}", halt.told(&mixer.machine))));
            findings.missing = Some(format!("the program went no further than {sample} samples"));
            Ok(false)
        }
    }
}

/// The words of a sample, from the machine before it.
fn again(mut since: Since, mixer: &Mixer, row: &[i16]) -> Option<Stretch> {
    for (leg, words) in mixer.legs().iter().enumerate() {
        if let Some(input) = row.get(leg) {
            since.event(Event { kind: kind::SERIAL_IN, value: u32::from(*input as u16) });
        }
        if *words > 0 {
            since.event(Event { kind: kind::RUN, value: *words });
        }
    }
    since.again(&mixer.machine)
}

/// A sound that was cut makes the track incomplete; one that is otherwise bad makes it unreadable.
fn cut(findings: &mut Findings, tail: Tail) -> Result<(), Fault> {
    match tail {
        Tail::Cut(fault) => {
            findings.missing = Some(fault.to_string());
            Ok(())
        }
        Tail::Bad(fault) => Err(fault),
    }
}

type Sent = wav::Reader<Box<dyn Read + Send>>;

/// One of the two has ended: so must the other.
fn lengths(findings: &mut Findings, inputs: &mut Inputs, sent: &mut Sent, more: bool, word: Option<i16>) -> Result<(), Fault> {
    if !more && word.is_none() {
        findings.length = Some(findings.samples);
        if findings.samples == 0 {
            findings.missing = Some("no word was sent: there is nothing to check".to_string());
        } else if !inputs.shows_its_length() && sent.stated() != Some(findings.samples) {
            findings.missing = Some("no header states a length: whether all of it is there cannot be seen".to_string());
        }
        return Ok(());
    }
    let file = sent.file().to_path_buf();
    // How long the other is: read on to its end.
    let mut row = [0; MOST_SOURCES];
    let ended = loop {
        let next = if more { inputs.next(&mut row) } else { sent.next().map(|sample| sample.is_some()) };
        match next {
            Ok(true) => continue,
            Ok(false) => break Ok(()),
            Err(tail) => break cut(findings, tail),
        }
    };
    ended?;
    let (sources, track) = (inputs.longest(), sent.taken());
    findings.length = Some(sources.max(track));
    let file = file.display();
    findings.missing.get_or_insert(match more {
        true => format!("{file} ends after {track} samples: the sources have {sources}"),
        false => format!("{file} goes on to {track} samples: the sources have {sources}"),
    });
    Ok(())
}
