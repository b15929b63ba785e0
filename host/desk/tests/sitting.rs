//! A sitting of twelve tracks, made by `desk mix` on generated sources and checked in one command: seven are as the chip sends them, one record is
//! cut, one has a flipped bit, one sound has a flipped bit, one was played by the trial desk, and one has two sources exchanged.
//! Two seconds each by default, as many as SITTING_SECONDS says (`make sitting` for ten minutes).

mod held;

use desk::chip::device::Device;
use desk::chip::machine::Machine;
use desk::scripts::given::Images;
use desk::scripts::reader::Reader;
use desk::sound::wav;
use desk::tracks::prepared::prepared;
use held::held;
use random::Random;
use std::fs::{self, File};
use std::io::{BufWriter, Seek, SeekFrom, Write};
use std::os::unix::fs::FileExt;
use std::path::{Path, PathBuf};
use std::process::{Command, Output, Stdio};

const RATE: u32 = 48_000;

/// The most memory that a check may take, however long the tracks are.
const MOST_KILOBYTES: u64 = 64 * 1024;

const SOURCES: [&str; 4] = ["booth", "floor", "relay", "room"];

fn seconds() -> u32 {
    std::env::var("SITTING_SECONDS").ok().and_then(|seconds| seconds.parse().ok()).unwrap_or(2)
}

fn samples() -> u64 {
    u64::from(seconds()) * u64::from(RATE)
}

struct Sitting {
    folder: PathBuf,
    kept: bool,
}

impl Drop for Sitting {
    fn drop(&mut self) {
        if !self.kept {
            let _ = fs::remove_dir_all(&self.folder);
        }
    }
}

fn examples() -> PathBuf {
    Path::new(env!("CARGO_MANIFEST_DIR")).join("../../examples")
}

fn desk(folder: &Path, line: &str) -> Command {
    let mut command = Command::new(env!("CARGO_BIN_EXE_desk"));
    command.args(line.split_whitespace()).current_dir(folder).stdin(Stdio::null());
    command
}

impl Sitting {
    /// A folder of its own, or the one that SITTING_FOLDER names, which stays.
    fn new() -> Sitting {
        let named = std::env::var_os("SITTING_FOLDER").map(PathBuf::from);
        let folder = named.clone().unwrap_or_else(|| std::env::temp_dir().join(format!("desk-sitting-{}", std::process::id())));
        fs::create_dir_all(&folder).expect("a folder");
        for (from, to) in
            [("mixing/mixing.desk", "mixing.desk"), ("trial/channels.desk", "channels.desk"), ("trial/preset.desk", "trial.desk")]
        {
            fs::copy(examples().join(from), folder.join(to)).expect("a script of the examples");
        }
        Sitting { folder, kept: named.is_some() }
    }

    fn path(&self, name: &str) -> PathBuf {
        self.folder.join(name)
    }

    fn write(&self, name: &str, text: &str) {
        fs::write(self.path(name), text).expect("a file in the folder");
    }

    /// Booth, floor and relay speak in turns and never quite at once; the room hums.
    fn make_sources(&self) {
        for (seed, name) in (1u64..).zip(SOURCES) {
            let file = BufWriter::new(File::create(self.path(&format!("{name}.wav"))).expect("a sound"));
            let mut writer = wav::Writer::new(file, RATE, Some(samples())).expect("a sound");
            let mut random = Random::new(seed);
            let mut held = 0.0f64;
            for at in 0..samples() {
                // Noise through a low pass, louder and softer as speech is, at a pace of its own for each.
                held += (f64::from(random.word() as i16) - held) * 0.2;
                let time = at as f64 / f64::from(RATE);
                let loud = if name == "room" { 0.05 } else { 0.3 + 0.3 * (time * (1.0 + seed as f64 * 0.37)).sin() };
                writer.write((held * loud) as i16).expect("a sample");
            }
            writer.finish().and_then(|(mut file, _)| file.flush()).expect("a sound");
        }
    }

    fn make_preset(&self, track: u32) {
        let gain = |part: u32| 0x1000 + (track * 0x0511 + part * 0x0c35) % 0x2800;
        self.write(&format!("preset-{track}.desk"), &format!("ram 0: {} {} {}\n", gain(0), gain(1), gain(2)));
    }

    /// Mixes a track of its own preset, from sources in this order.
    fn mix(&self, track: u32, sources: &str) {
        self.make_preset(track);
        let line = format!("mix mixing.desk preset-{track}.desk --in {sources} --out track-{track}.wav --record track-{track}.record");
        let output = desk(&self.folder, &line).output().expect("desk runs");
        assert!(output.status.success(), "{}", String::from_utf8_lossy(&output.stderr));
    }

    /// What the trial desk sends for the four sources of its program.
    fn play_on_the_trial_desk(&self, track: u32) {
        let scripts = Reader::of_files(&[self.path("channels.desk"), self.path("trial.desk")]);
        let machine = prepared(&Images::default(), scripts, &mut Vec::new()).expect("the scripts of the trial").machine;
        let mut trial = Trial::of(machine);
        let mut sources = SOURCES.map(|name| wav::open(&self.path(&format!("{name}.wav"))).expect("a source"));
        let file = BufWriter::new(File::create(self.path(&format!("track-{track}.wav"))).expect("a sound"));
        let mut writer = wav::Writer::new(file, RATE, Some(samples())).expect("a sound");
        for _ in 0..samples() {
            for source in &mut sources {
                let word = source.next().expect("a whole sound").expect("a sample");
                trial.takes(word);
            }
            writer.write(trial.sends()).expect("a sample");
        }
        writer.finish().and_then(|(mut file, _)| file.flush()).expect("a sound");
    }

    /// Turns one bit of a file round.
    fn flip(&self, name: &str, at: u64, bit: u8) {
        let file = File::options().read(true).write(true).open(self.path(name)).expect("a file");
        let mut byte = [0];
        file.read_exact_at(&mut byte, at).expect("a byte");
        file.write_all_at(&[byte[0] ^ 1 << bit], at).expect("a byte");
    }

    fn size(&self, name: &str) -> u64 {
        fs::metadata(self.path(name)).expect("a file").len()
    }

    fn cut(&self, name: &str, to: u64) {
        let mut file = File::options().write(true).open(self.path(name)).expect("a file");
        file.set_len(to).and_then(|()| file.seek(SeekFrom::End(0))).expect("a shorter file");
    }
}

/// The emulator with the trial desk's fault, which runs until it has taken or sent a word, as `desk mix` does.
struct Trial {
    registers: emulator::Registers,
    machine: Machine,
}

impl Trial {
    fn of(machine: Machine) -> Trial {
        Trial { registers: emulator::Registers::default(), machine }
    }

    fn event(&mut self, kind: u32, value: u32) -> u16 {
        let Machine { program, rom, ram, .. } = &mut self.machine;
        let reply = emulator::trial::event(&mut self.registers, program, rom, ram.of_mut(Device::Upd77p20), kind, value);
        assert_eq!(reply.number, 0);
        reply.value
    }

    fn takes(&mut self, word: i16) {
        self.event(4, u32::from(word as u16));
        while self.registers.siack {
            self.event(0, 1);
        }
    }

    fn sends(&mut self) -> i16 {
        while !self.registers.sorq {
            self.event(0, 1);
        }
        self.event(5, 0) as i16
    }
}

const IN_ORDER: &str = "booth.wav floor.wav relay.wav";

fn list() -> String {
    let sounds = |track: u32, program: &str, sources: &str| format!("program {program} in {sources} sent track-{track}.wav");
    let mixed = |track: u32| sounds(track, &format!("mixing.desk preset-{track}.desk"), IN_ORDER);
    let line = |track: u32| match track {
        1..=4 | 9 | 10 => format!("record track-{track}.record"),
        11 => sounds(11, "channels.desk trial.desk", "booth.wav floor.wav relay.wav room.wav"),
        _ => mixed(track),
    };
    (1..=12).map(|track| format!("track \"Channel {track}\" {}\n", line(track))).collect()
}

fn made() -> Sitting {
    let sitting = Sitting::new();
    // A folder that was named and is complete is checked again as it stands.
    if sitting.path("evening.tracks").exists() {
        return sitting;
    }
    sitting.make_sources();
    (1..=10).for_each(|track| sitting.mix(track, IN_ORDER));
    sitting.mix(12, "floor.wav booth.wav relay.wav");
    sitting.play_on_the_trial_desk(11);
    sitting.flip("track-8.wav", 44 + samples() / 2 * 2 + 1, 5);
    sitting.cut("track-9.record", sitting.size("track-9.record") * 6 / 10);
    sitting.flip("track-10.record", sitting.size("track-10.record") / 2, 3);
    sitting.write("evening.tracks", &list());
    sitting
}

/// Runs a command; what it printed, and the most memory that it was seen to hold, in kilobytes.
fn measured(mut command: Command) -> (Output, u64) {
    let child = command.stdout(Stdio::piped()).stderr(Stdio::piped()).spawn().expect("desk runs");
    let process = child.id();
    let watching = std::thread::spawn(move || {
        let mut most = 0;
        while let Some(now) = held(process) {
            most = most.max(now);
            std::thread::sleep(std::time::Duration::from_millis(10));
        }
        most
    });
    let output = child.wait_with_output().expect("desk ends");
    (output, watching.join().expect("the watch ends"))
}

#[test]
fn twelve_tracks_have_the_right_verdicts_in_one_command() {
    let sitting = made();
    let begin = std::time::Instant::now();
    let (output, most) = measured(desk(&sitting.folder, "check-track --tracks evening.tracks --report evening.html --start 19:30:00"));
    println!("{} seconds a track: checked in {:.1} s, at most {most} kB", seconds(), begin.elapsed().as_secs_f64());
    let (out, err) = (String::from_utf8_lossy(&output.stdout), String::from_utf8_lossy(&output.stderr));
    print!("{out}");
    assert_eq!(output.status.code(), Some(2), "{out}{err}");
    let lines: Vec<&str> = out.lines().collect();
    assert_eq!(lines.len(), 13, "{out}");
    for (track, line) in (1..).zip(&lines[..12]) {
        let said = line.strip_prefix(&format!("Channel {track}: ")).unwrap_or_else(|| panic!("{line}"));
        for part in expected(track) {
            assert!(said.contains(&part), "track {track}: {part:?} is not in {said:?}");
        }
    }
    assert_eq!(lines[12], "12 tracks: agrees 7, differs 3, incomplete 1, unreadable 1");
    assert!(most > 0 && most < MOST_KILOBYTES, "{most} kB");
    page_shows(&fs::read_to_string(sitting.path("evening.html")).expect("the report"));
}

fn expected(track: u32) -> Vec<String> {
    let parts: &[&str] = match track {
        1..=7 => &["agrees: ", "all as the chip sends them"],
        8 => &["differs: at ", "1 of ", "by 8192 steps at most (-12.0 dB)", "the sources on it are the right ones"],
        9 => &["incomplete: the record is cut", "are as the chip sends them"],
        10 => &["unreadable: ", "the record was altered"],
        11 => &["differs: from 19:30:00.000", "room is on it in place of booth, floor and relay"],
        _ => &["differs: from 19:30:00.", "booth and floor are exchanged"],
    };
    let middle = desk::tracks::time::at(samples() / 2, Some(RATE), desk::tracks::time::Start::parse("19:30").expect("a time"));
    let when = (track == 8).then(|| format!("at {middle} (sample {})", samples() / 2));
    parts.iter().map(|part| part.to_string()).chain(when).collect()
}

/// Every track is on the page with its verdict, and nothing is fetched from elsewhere.
fn page_shows(page: &str) {
    for track in 1..=12 {
        assert!(page.contains(&format!("Channel {track}")), "track {track}");
    }
    for word in ["agrees", "differs", "incomplete", "unreadable", "booth and floor are exchanged"] {
        assert!(page.contains(word), "{word}");
    }
    for word in ["<script", "http://", "https://", "src=\"", "@import"] {
        assert!(!page.contains(word), "{word}");
    }
}
