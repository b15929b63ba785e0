//! `desk check-track`: says of each track whether every word that the desk sent is the word that the chip would have sent.

use crate::commands::arguments::{Argument, Arguments};
use crate::commands::tally::{Subject, Tally};
use crate::fault::Fault;
use crate::files::{self, NewFile};
use crate::output::Output;
use crate::report;
use crate::scripts::given::Images;
use crate::tracks::findings::Findings;
use crate::tracks::list::{self, From, Track};
use crate::tracks::mixer::MOST_SOURCES;
use crate::tracks::played::Sounds;
use crate::tracks::sitting;
use crate::tracks::time::Start;
use crate::tracks::verdict::{sentence, Verdict};
use std::io::Write;
use std::path::{Path, PathBuf};

const USE: &str = "expected `desk check-track RECORD..`, or `--program FILE.. [--data FILE] [--preset FILE] --in WAV.. --sent WAV`, \
                   or `--tracks LIST`";

const TRACKS: Subject = Subject { name: "track", is_not_good: "does not agree with the chip", are_not_good: "do not agree with the chip" };

struct Asked {
    tracks: Vec<Track>,
    /// The list of tracks, if there is one.
    list: Option<PathBuf>,
    report: Option<PathBuf>,
    start: Start,
}

pub fn command(arguments: &[String]) -> Result<(), Fault> {
    let asked = asked(arguments)?;
    let report = asked.report.as_deref().map(|file| begun_report(file, &asked)).transpose()?;
    let found = sitting::check(&asked.tracks);
    // Whatever cannot be written, the rest is done and all of it is told; the verdict is the status.
    let printed = print(&found, asked.start);
    let reported = report.map_or(Ok(()), |report| write_report(report, &asked, &found));
    tally(&found).ended(printed.and(reported))
}

/// The report's file, so that a folder that is not there is told before the check.
fn begun_report<'a>(file: &'a Path, asked: &Asked) -> Result<(&'a Path, NewFile), Fault> {
    files::replace_no_input(&[file], &inputs(asked))?;
    Ok((file, NewFile::create(file)?))
}

fn print(found: &[Findings], start: Start) -> Result<(), Fault> {
    let mut output = Output::new();
    for findings in found {
        output.line(&format!("{}: {}: {}", findings.name, Verdict::of(findings), sentence(findings, start)))?;
    }
    output.line(&tally(found).to_string())?;
    output.flush()
}

fn write_report((path, mut file): (&Path, NewFile), asked: &Asked, found: &[Findings]) -> Result<(), Fault> {
    // What the scripts include is known only now.
    found.iter().try_for_each(|findings| files::replace_no_input(&[path], &findings.files))?;
    let page = report::page(&title(asked), found, asked.start);
    file.write_all(page.as_bytes()).map_err(|error| file.fault(&error))?;
    file.finish()
}

fn asked(arguments: &[String]) -> Result<Asked, Fault> {
    let mut tracks: Vec<Track> = Vec::new();
    let (mut scripts, mut sources, mut sent) = (None, None, None);
    let mut images = Images::default();
    let (mut list, mut report, mut start) = (None, None, None);
    let mut arguments = Arguments::new(USE, arguments);
    while let Some(argument) = arguments.next() {
        match argument {
            Argument::File(record) => tracks.push(Track { name: record.to_string(), from: From::Record(PathBuf::from(record)) }),
            Argument::Option(option @ "--program") => {
                let files = paths(&mut arguments, option, "the scripts or the image of the program")?;
                arguments.once(&mut scripts, option, files)?;
            }
            Argument::Option(option @ ("--data" | "--preset")) => arguments.image(option, &mut images)?,
            Argument::Option(option @ "--in") => {
                let files = paths(&mut arguments, option, "the sounds of the sources")?;
                if files.len() > MOST_SOURCES {
                    return Err(arguments.bad(&format!("--in with {} files: expected 1 to {MOST_SOURCES} sources", files.len())));
                }
                arguments.once(&mut sources, option, files)?;
            }
            Argument::Option(option @ "--sent") => {
                let file = PathBuf::from(arguments.value(option, "the sound that was sent")?);
                arguments.once(&mut sent, option, file)?;
            }
            Argument::Option(option @ "--tracks") => {
                let file = PathBuf::from(arguments.value(option, "the list of tracks")?);
                arguments.once(&mut list, option, file)?;
            }
            Argument::Option(option @ "--report") => {
                let file = arguments.value(option, "the file of the report")?;
                if files::is_standard(Path::new(file)) {
                    return Err(arguments.bad("--report -: expected a file, since the verdicts go to standard output"));
                }
                arguments.once(&mut report, option, PathBuf::from(file))?;
            }
            Argument::Option(option @ "--start") => {
                let text = arguments.value(option, "the time of day of the first sample, as 14:30:00")?;
                let time =
                    Start::parse(text).ok_or_else(|| arguments.bad(&format!("--start {text:?}: expected a time of day, as 14:30:00")))?;
                arguments.once(&mut start, option, time)?;
            }
            Argument::Option(option) => return Err(arguments.unknown(option)),
        }
    }
    match (scripts, sources, sent) {
        (None, None, None) if images == Images::default() => {}
        (Some(scripts), Some(sources), Some(sent)) => {
            let name = sent.display().to_string();
            tracks.push(Track { name, from: From::Sounds(Sounds { images, scripts, sources, sent }) });
        }
        _ => return Err(arguments.bad("--program, --in and --sent: expected all three")),
    }
    if let Some(list) = &list {
        tracks.extend(list::read(list)?);
    }
    if tracks.is_empty() {
        return Err(arguments.bad("no track"));
    }
    let read: Vec<PathBuf> = tracks.iter().flat_map(read_by).collect();
    arguments.standard_input_once(read.iter().map(PathBuf::as_path))?;
    Ok(Asked { tracks, list, report, start: start.unwrap_or_default() })
}

fn paths(arguments: &mut Arguments, option: &str, expected: &str) -> Result<Vec<PathBuf>, Fault> {
    let files: Vec<PathBuf> = arguments.files().into_iter().map(PathBuf::from).collect();
    if files.is_empty() {
        return Err(arguments.bad(&format!("{option}: expected {expected}")));
    }
    Ok(files)
}

/// The files that a track names.
fn read_by(track: &Track) -> Vec<PathBuf> {
    match &track.from {
        From::Record(record) => vec![record.clone()],
        From::Sounds(Sounds { images, scripts, sources, sent }) => {
            images.files().chain(scripts).chain(sources).chain([sent]).cloned().collect()
        }
    }
}

fn inputs(asked: &Asked) -> Vec<PathBuf> {
    asked.tracks.iter().flat_map(read_by).chain(asked.list.clone()).collect()
}

fn title(asked: &Asked) -> String {
    match (&asked.list, asked.tracks.as_slice()) {
        (Some(list), _) => list.file_stem().unwrap_or(list.as_os_str()).to_string_lossy().into_owned(),
        (None, [track]) => Path::new(&track.name).file_stem().unwrap_or_default().to_string_lossy().into_owned(),
        (None, tracks) => format!("{} tracks", tracks.len()),
    }
}

/// How many tracks there are under each verdict.
fn tally(found: &[Findings]) -> Tally<4> {
    let mut tally = Tally::new(TRACKS, Verdict::ALL.map(Verdict::name));
    found.iter().for_each(|findings| tally.count(Verdict::of(findings).name()));
    tally
}
