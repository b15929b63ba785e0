//! `desk mix`: sound files through the serial port of a program, one word in for each source and one out for each sample of the track.

use crate::chip::event::Event;
use crate::commands::arguments::{Argument, Arguments};
use crate::fault::Fault;
use crate::files::{self, is_standard, NewFile};
use crate::output::{tell, Output};
use crate::progress::{Meter, Progress};
use crate::records::compact;
use crate::scripts::given::Images;
use crate::scripts::reader::Reader;
use crate::scripts::statement::Action;
use crate::sound::levels;
use crate::sound::wav;
use crate::tracks::inputs::Inputs;
use crate::tracks::mixer::{Leg, Mixer, MOST_SOURCES};
use crate::tracks::played::source_name;
use crate::tracks::prepared::{prepared, Prepared};
use crate::tracks::time;
use bemulatsho::kind;
use std::io::{self, BufWriter, Seek, SeekFrom, Write};
use std::path::{Path, PathBuf};

const USE: &str = "expected `desk mix [--program FILE] [--data FILE] [--preset FILE] SCRIPT.. --in WAV.. --out WAV [--record FILE]`; \
                   see `desk help mix`";

/// What is to be mixed: the images and the scripts that prepare the machine, the sources in their order, where the track goes, and its record.
pub struct Order {
    pub images: Images,
    pub scripts: Vec<PathBuf>,
    pub sources: Vec<PathBuf>,
    pub track: PathBuf,
    pub record: Option<PathBuf>,
}

pub fn command(arguments: &[String]) -> Result<(), Fault> {
    let order = order(arguments)?;
    let mixed = mix(&order)?;
    mixed.remarks.iter().for_each(|remark| tell(remark));
    if is_standard(&order.track) {
        tell(&mixed.summary(Path::new("standard output")));
        return Ok(());
    }
    let mut output = Output::new();
    output.line(&mixed.summary(&order.track))?;
    output.flush()
}

fn order(arguments: &[String]) -> Result<Order, Fault> {
    let (mut scripts, mut sources, mut track, mut record) = (Vec::new(), None, None, None);
    let mut images = Images::default();
    let mut arguments = Arguments::new(USE, arguments);
    while let Some(argument) = arguments.next() {
        match argument {
            Argument::Option(option @ ("--program" | "--data" | "--preset")) => arguments.image(option, &mut images)?,
            Argument::Option(option @ "--in") => {
                let files: Vec<PathBuf> = arguments.files().into_iter().map(PathBuf::from).collect();
                if files.is_empty() || files.len() > MOST_SOURCES {
                    return Err(arguments.bad(&format!("--in with {} files: expected 1 to {MOST_SOURCES} sources", files.len())));
                }
                arguments.once(&mut sources, option, files)?;
            }
            Argument::Option(option @ "--out") => {
                let file = PathBuf::from(arguments.value(option, "the file of the track")?);
                arguments.once(&mut track, option, file)?;
            }
            Argument::Option(option @ "--record") => {
                let file = arguments.value(option, "the file of the record")?;
                if is_standard(Path::new(file)) {
                    return Err(arguments.bad("--record -: expected a file"));
                }
                arguments.once(&mut record, option, PathBuf::from(file))?;
            }
            Argument::Option(option) => return Err(arguments.unknown(option)),
            Argument::File(script) => scripts.push(PathBuf::from(script)),
        }
    }
    if scripts.is_empty() && images.program.is_none() {
        return Err(arguments.bad("no script: expected one or more before --in, or --program"));
    }
    let sources = sources.ok_or_else(|| arguments.bad("no --in: expected the files of the sources"))?;
    let track = track.ok_or_else(|| arguments.bad("no --out: expected the file of the track"))?;
    arguments.standard_input_once(sources.iter().map(PathBuf::as_path))?;
    Ok(Order { images, scripts, sources, track, record })
}

/// What a track is like, in numbers.
pub struct Mixed {
    pub rate: u32,
    pub samples: u64,
    pub clipped: u64,
    pub peak: u16,
    /// What a person should know.
    pub remarks: Vec<String>,
}

/// Mixes and writes the track, and its record.
pub fn mix(order: &Order) -> Result<Mixed, Fault> {
    let mut inputs = order.sources.clone();
    let prepared = prepared(&order.images, Reader::of_files(&order.scripts), &mut inputs)?;
    let outputs: Vec<&Path> =
        [&order.track].into_iter().chain(&order.record).map(PathBuf::as_path).filter(|file| !is_standard(file)).collect();
    files::replace_no_input(&outputs, &inputs)?;
    let mut inputs = Inputs::open(&order.sources)?;
    let mut track = Track::create(&order.track, inputs.rate, inputs.stated())?;
    let mut record = match &order.record {
        Some(file) => Some(Record::create(file, &prepared, inputs.rate, &order.sources)?),
        None => None,
    };
    let mut mixed = Mixed { rate: inputs.rate, samples: 0, clipped: 0, peak: 0, remarks: Vec::new() };
    let sent_before = prepared.sent;
    let mut mixer = Mixer::new(prepared.machine, inputs.count());
    let mut row = [0; MOST_SOURCES];
    let row = &mut row[..inputs.count().min(MOST_SOURCES)];
    let meter = Meter::default();
    let progress = Progress::of("mixing", inputs.stated(), vec![meter.clone()]);
    while inputs.next(row).map_err(|tail| tail.fault())? {
        if mixed.samples.is_multiple_of(4096) {
            meter.at(mixed.samples);
        }
        let sent = mixer.sample(row).map_err(|(leg, halt)| {
            let place = match leg {
                Leg::Source(at) => order.sources.get(at).map_or_else(String::new, |file| file.display().to_string()),
                Leg::Sending => "after the last source".to_string(),
            };
            Fault::failed(format!("sample {}, {place}: {}", mixed.samples, halt.told(&mixer.machine)))
        })?;
        track.write(sent)?;
        if let Some(record) = &mut record {
            record.sample(row, mixer.legs(), sent)?;
        }
        mixed.count(sent);
    }
    drop(progress);
    mixed.remarks = remarks(&inputs, &mixed);
    // Both are whole before either takes its place.
    let record = record.map(|record| record.completed(sent_before + mixed.samples)).transpose()?;
    let track = track.completed()?;
    record.into_iter().chain(track).try_for_each(NewFile::finish)?;
    Ok(mixed)
}

fn remarks(inputs: &Inputs, mixed: &Mixed) -> Vec<String> {
    let mut remarks = inputs.remarks();
    remarks.extend(inputs.without_length());
    if mixed.peak == 0 {
        remarks.push("the track is silent: every sample is 0".to_string());
    }
    remarks
}

impl Mixed {
    fn count(&mut self, sent: i16) {
        self.samples += 1;
        self.clipped += u64::from(matches!(sent, i16::MAX | i16::MIN));
        self.peak = self.peak.max(sent.unsigned_abs());
    }

    /// One line about a track.
    pub fn summary(&self, file: &Path) -> String {
        format!(
            "{}: {} samples, {} at {} Hz, {} clipped, peak {} ({})",
            file.display(),
            self.samples,
            time::length(self.samples, Some(self.rate)),
            self.rate,
            self.clipped,
            self.peak,
            levels::print(levels::decibels(f64::from(self.peak) / levels::FULL_SCALE))
        )
    }
}

/// The sound file that is being written.
enum Track {
    File(PathBuf, wav::Writer<BufWriter<NewFile>>, u32),
    Standard(wav::Writer<io::Stdout>),
}

impl Track {
    fn create(path: &Path, rate: u32, samples: Option<u64>) -> Result<Track, Fault> {
        let failed = |error: io::Error| Fault::of_file(path, "write", &error);
        Ok(if is_standard(path) {
            Track::Standard(wav::Writer::new(io::stdout(), rate, samples).map_err(failed)?)
        } else {
            let file = BufWriter::new(NewFile::create(path)?);
            Track::File(path.to_path_buf(), wav::Writer::new(file, rate, samples).map_err(failed)?, rate)
        })
    }

    #[inline]
    fn write(&mut self, sample: i16) -> Result<(), Fault> {
        match self {
            Track::File(path, writer, _) => writer.write(sample).map_err(|error| Fault::of_file(path, "write", &error)),
            Track::Standard(writer) => writer.write(sample).map_err(|error| Fault::of_file(Path::new("standard output"), "write", &error)),
        }
    }

    /// The file, whose header says how many samples there are, now that it is known; none on standard output.
    fn completed(self) -> Result<Option<NewFile>, Fault> {
        match self {
            Track::Standard(writer) => {
                writer.finish().map(|_| None).map_err(|error| Fault::of_file(Path::new("standard output"), "write", &error))
            }
            Track::File(path, writer, rate) => {
                let failed = |error: io::Error| Fault::of_file(&path, "write", &error);
                let (buffer, samples) = writer.finish().map_err(failed)?;
                let mut file = buffer.into_inner().map_err(|error| failed(error.into_error()))?;
                file.seek(SeekFrom::Start(0)).and_then(|_| file.write_all(&wav::header(rate, Some(samples)))).map_err(failed)?;
                Ok(Some(file))
            }
        }
    }
}

/// The record that is being written.
struct Record {
    path: PathBuf,
    writer: compact::Writer<BufWriter<NewFile>>,
}

impl Record {
    fn create(path: &Path, prepared: &Prepared, rate: u32, sources: &[PathBuf]) -> Result<Record, Fault> {
        let failed = |error: io::Error| Fault::of_file(path, "write", &error);
        let file = BufWriter::new(NewFile::create(path)?);
        let mut record = Record { path: path.to_path_buf(), writer: compact::Writer::new(file).map_err(failed)? };
        record.write(&Action::Rate { hertz: rate })?;
        record.write(&Action::Sources { names: sources.iter().map(|file| source_name(file)).collect() })?;
        prepared.actions.iter().try_for_each(|action| record.write(action))?;
        Ok(record)
    }

    #[inline]
    fn write(&mut self, action: &Action) -> Result<(), Fault> {
        self.writer.write(action).map_err(|error| Fault::of_file(&self.path, "write", &error))
    }

    /// The events of one sample, and the word that was sent.
    #[inline]
    fn sample(&mut self, row: &[i16], legs: &[u32], sent: i16) -> Result<(), Fault> {
        for (leg, words) in legs.iter().enumerate() {
            if let Some(input) = row.get(leg) {
                self.write(&Action::Event(Event { kind: kind::SERIAL_IN, value: u32::from(*input as u16) }))?;
            }
            if *words > 0 {
                self.write(&Action::Event(Event { kind: kind::RUN, value: *words }))?;
            }
        }
        self.write(&Action::Event(Event { kind: kind::SERIAL_OUT, value: 0 }))?;
        self.write(&Action::Sent { word: sent as u16 })
    }

    fn completed(mut self, samples: u64) -> Result<NewFile, Fault> {
        self.write(&Action::Samples { count: samples })?;
        let failed = |error: io::Error| Fault::of_file(&self.path, "write", &error);
        let buffer = self.writer.finish().map_err(failed)?;
        buffer.into_inner().map_err(|error| failed(error.into_error()))
    }
}
