//! A list of tracks: one text, a line a track, paths relative to it.
//!
//! ```text
//! track NAME record FILE
//! track NAME program FILE .. [data FILE] [preset FILE] in WAV .. sent WAV
//! ```
//!
//! A file of the program is a script or an image in Intel HEX.

use crate::fault::{self, Fault};
use crate::files::{is_standard, read_at_most};
use crate::scripts::given::Images;
use crate::scripts::words::{Token, Words};
use crate::tracks::mixer::MOST_SOURCES;
use crate::tracks::played::Sounds;
use std::fs::File;
use std::path::{Path, PathBuf};

/// Most tracks of a list, and most bytes of it.
const MOST: usize = 1000;
const LARGEST: u64 = 1 << 20;

/// The line of a track.
const FORM: &str = "`track NAME record FILE` or `track NAME program FILE .. [data FILE] [preset FILE] in WAV .. sent WAV`";

/// What may stand behind the scripts of a program, each once; the sources are last.
const BEHIND_SCRIPTS: [&str; 3] = ["data", "preset", "in"];

#[derive(Clone, Debug, PartialEq, Eq)]
pub struct Track {
    pub name: String,
    pub from: From,
}

#[derive(Clone, Debug, PartialEq, Eq)]
pub enum From {
    Record(PathBuf),
    Sounds(Sounds),
}

impl From {
    /// The file that has what was sent.
    fn sent(&self) -> &Path {
        match self {
            From::Record(record) => record,
            From::Sounds(sounds) => &sounds.sent,
        }
    }
}

pub fn read(list: &Path) -> Result<Vec<Track>, Fault> {
    if is_standard(list) {
        return Err(Fault::bad("- as the list of tracks: expected a file, whose folder has the recordings"));
    }
    let file = File::open(list).map_err(|error| Fault::of_file(list, "read", &error))?;
    let text = read_at_most(LARGEST, list, file, "a list of tracks")?;
    let text = String::from_utf8(text).map_err(|_| Fault::bad(format!("{}: bytes that are no text: expected UTF-8", list.display())))?;
    parse(list, &text)
}

fn parse(list: &Path, text: &str) -> Result<Vec<Track>, Fault> {
    let file = fault::named(list);
    let folder = list.parent().unwrap_or(Path::new(""));
    let mut tracks: Vec<Track> = Vec::new();
    for (line, text) in (1..).zip(text.trim_start_matches('\u{feff}').lines()) {
        let mut words = Words::new(file, line, text)?;
        let Some(first) = words.next() else { continue };
        if !first.is("track") {
            return Err(first.wrong(FORM));
        }
        let name = words.expect("the name of the track")?;
        if tracks.iter().any(|track| track.name == name.text) {
            return Err(name.wrong("each name once"));
        }
        let from = from(folder, &mut words)?;
        if let Some(other) = tracks.iter().find(|track| track.from.sent() == from.sent()) {
            let message = format!("{} is track {:?} too: expected a file for each", from.sent().display(), other.name);
            return Err(Fault::bad_at(first.place, message));
        }
        tracks.push(Track { name: name.text, from });
        if tracks.len() > MOST {
            return Err(first.wrong(&format!("at most {MOST} tracks")));
        }
    }
    if tracks.is_empty() {
        return Err(Fault::bad(format!("{}: no track: expected a line for each", list.display())));
    }
    Ok(tracks)
}

fn from(folder: &Path, words: &mut Words) -> Result<From, Fault> {
    let form = words.expect("`record` or `program`")?;
    if form.is("record") {
        let file = words.expect("the file of the record")?;
        words.end()?;
        return Ok(From::Record(beside(folder, file)?));
    }
    if !form.is("program") {
        return Err(form.wrong("`record` or `program`"));
    }
    let (scripts, behind) = files(folder, words, &BEHIND_SCRIPTS)?;
    let images = images(folder, words, behind)?;
    let (sources, last) = files(folder, words, &["sent"])?;
    if sources.len() > MOST_SOURCES {
        return Err(last.wrong(&format!("at most {MOST_SOURCES} sources before it")));
    }
    let sent = words.expect("the sound that was sent")?;
    words.end()?;
    Ok(From::Sounds(Sounds { images, scripts, sources, sent: beside(folder, sent)? }))
}

/// The images of the data ROM and the RAM, up to the sources.
fn images(folder: &Path, words: &mut Words, mut word: Token) -> Result<Images, Fault> {
    let mut images = Images::default();
    while !word.is("in") {
        let (place, expected) = match word.is("data") {
            true => (&mut images.data, "the image of the data ROM"),
            false => (&mut images.preset, "the preset"),
        };
        *place = Some(beside(folder, words.expect(expected)?)?);
        let given = |name: &str| name == "data" && images.data.is_some() || name == "preset" && images.preset.is_some();
        word = one_of(words, &BEHIND_SCRIPTS.into_iter().filter(|name| !given(name)).collect::<Vec<&str>>())?;
    }
    Ok(images)
}

fn one_of(words: &mut Words, ends: &[&str]) -> Result<Token, Fault> {
    let expected = either(ends);
    match words.expect(&expected)? {
        word if ends.iter().any(|end| word.is(end)) => Ok(word),
        other => Err(other.wrong(&expected)),
    }
}

fn either(ends: &[&str]) -> String {
    format!("`{}`", ends.join("` or `"))
}

/// A file of the list's folder; standard input has no place in a list.
fn beside(folder: &Path, name: Token) -> Result<PathBuf, Fault> {
    if is_standard(Path::new(&name.text)) {
        return Err(name.wrong("a file"));
    }
    Ok(folder.join(name.text))
}

/// The files up to one of these words, at least one.
fn files(folder: &Path, words: &mut Words, ends: &[&str]) -> Result<(Vec<PathBuf>, Token), Fault> {
    let mut files = Vec::new();
    loop {
        let token = words.expect(&format!("a file, or {}", either(ends)))?;
        if !ends.iter().any(|end| token.is(end)) {
            files.push(beside(folder, token)?);
        } else if files.is_empty() {
            return Err(token.wrong("a file before it"));
        } else {
            return Ok((files, token));
        }
    }
}

#[cfg(test)]
mod tests {
    use super::*;

    fn told(text: &str) -> String {
        parse(Path::new("evening/tracks"), text).unwrap_err().to_string()
    }

    #[test]
    fn tracks_are_read_with_paths_beside_the_list() {
        let text =
            "# twelve\ntrack English record en.record\nTRACK \"Channel 2\" program mix.desk \"my preset.desk\" in a.wav b.wav sent 2.wav\n";
        let tracks = parse(Path::new("evening/tracks"), text).unwrap();
        let path = |name: &str| Path::new("evening").join(name);
        assert_eq!(tracks[0], Track { name: "English".to_string(), from: From::Record(path("en.record")) });
        let sounds = Sounds {
            images: Images::default(),
            scripts: vec![path("mix.desk"), path("my preset.desk")],
            sources: vec![path("a.wav"), path("b.wav")],
            sent: path("2.wav"),
        };
        assert_eq!(tracks[1], Track { name: "Channel 2".to_string(), from: From::Sounds(sounds) });
    }

    #[test]
    fn a_data_rom_stands_between_the_program_and_the_sources() {
        let text = "track A program mix.hex preset.desk data rom.hex in a.wav sent 1.wav\ntrack B program \"data\" in a.wav sent 2.wav\n";
        let tracks = parse(Path::new("tracks"), text).unwrap();
        let sounds = |data: Option<&str>, scripts: &[&str], sent: &str| Sounds {
            images: Images { data: data.map(PathBuf::from), ..Images::default() },
            scripts: scripts.iter().map(PathBuf::from).collect(),
            sources: vec![PathBuf::from("a.wav")],
            sent: PathBuf::from(sent),
        };
        assert_eq!(tracks[0].from, From::Sounds(sounds(Some("rom.hex"), &["mix.hex", "preset.desk"], "1.wav")));
        assert_eq!(tracks[1].from, From::Sounds(sounds(None, &["data"], "2.wav")));
    }

    #[test]
    fn faults_have_their_place() {
        assert_eq!(told("\n"), "evening/tracks: no track: expected a line for each");
        assert!(told("English record x").starts_with("evening/tracks:1:1: \"English\": expected `track NAME record FILE`"));
        assert_eq!(told("track E\n"), "evening/tracks:1:8: the line ends: expected `record` or `program`");
        assert_eq!(told("track E record x y"), "evening/tracks:1:18: \"y\": expected the end of the line");
        assert_eq!(told("track E record x\ntrack E record y"), "evening/tracks:2:7: \"E\": expected each name once");
        let twice = "track E record x\ntrack F program p in a sent x";
        assert_eq!(told(twice), "evening/tracks:2:1: evening/x is track \"E\" too: expected a file for each");
        assert_eq!(told("track E program in a sent b"), "evening/tracks:1:17: \"in\": expected a file before it");
        assert_eq!(told("track E program p in a"), "evening/tracks:1:23: the line ends: expected a file, or `sent`");
        assert_eq!(told("track E program p"), "evening/tracks:1:18: the line ends: expected a file, or `data` or `preset` or `in`");
        assert_eq!(told("track E program p data"), "evening/tracks:1:23: the line ends: expected the image of the data ROM");
        assert_eq!(told("track E program p data d e in a sent b"), "evening/tracks:1:26: \"e\": expected `preset` or `in`");
    }
}
