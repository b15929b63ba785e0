//! How fast tracks are mixed and checked: the mixing example on three sources at 48 kHz, by the functions that `desk` calls.

use desk::commands::mix::{mix, Order};
use desk::scripts::given::Images;
use desk::sound::wav::{self, Sound};
use desk::tracks::list::{From, Track};
use desk::tracks::played::Sounds;
use desk::tracks::sitting;
use desk::tracks::verdict::Verdict;
use std::fs;
use std::path::{Path, PathBuf};
use std::time::Instant;

const RATE: u32 = 48_000;
const SECONDS: u32 = 20;

/// Prints samples a second and times real time of a mix, and of a check of as many tracks as there are cores.
pub fn table() -> Result<(), String> {
    let folder = std::env::temp_dir().join(format!("bemulatsho-speed-{}", std::process::id()));
    let printed = measure(&folder);
    // What was measured stands; a folder that cannot be removed is no fault of it.
    let _ = fs::remove_dir_all(&folder);
    printed
}

fn measure(folder: &Path) -> Result<(), String> {
    let order = made(folder)?;
    let samples = f64::from(RATE * SECONDS);
    let start = Instant::now();
    mix(&order).map_err(|fault| fault.to_string())?;
    println!("\ntracks of three sources at 48 kHz, {SECONDS} seconds each");
    line("mix, with its record", samples, start);
    let (scripts, sources) = (order.scripts.clone(), order.sources.clone());
    let sounds = Sounds { images: Images::default(), scripts, sources, sent: order.track.clone() };
    let cores = std::thread::available_parallelism().map_or(1, |cores| cores.get());
    for (what, from) in [("check of sound files", From::Sounds(sounds)), ("check of compact records", record(&order)?)] {
        for tracks in [1, cores] {
            let tracks: Vec<Track> = (1..=tracks).map(|at| Track { name: at.to_string(), from: from.clone() }).collect();
            let start = Instant::now();
            let found = sitting::check(&tracks);
            if found.iter().any(|findings| Verdict::of(findings) != Verdict::Agrees) {
                return Err(format!("the {what} does not agree"));
            }
            line(&format!("{what}, {} at once", tracks.len()), samples * tracks.len() as f64, start);
        }
    }
    Ok(())
}

fn record(order: &Order) -> Result<From, String> {
    order.record.clone().map(From::Record).ok_or_else(|| "no record".to_string())
}

fn line(what: &str, samples: f64, start: Instant) {
    let seconds = start.elapsed().as_secs_f64();
    let (rate, times) = (samples / seconds, samples / f64::from(RATE) / seconds);
    let hour = 12.0 * 3600.0 / times / 60.0;
    println!(
        "{what:<38}{:>8.2} million samples a second{times:>8.1} times real time; twelve tracks of an hour in {hour:.1} minutes",
        rate / 1e6
    );
}

/// Three sources that clip now and then, and the example's program with gains that let them.
fn made(folder: &Path) -> Result<Order, String> {
    fs::create_dir_all(folder).map_err(|error| error.to_string())?;
    let write = |name: &str, bytes: &[u8]| -> Result<PathBuf, String> {
        let path = folder.join(name);
        fs::write(&path, bytes).map_err(|error| format!("{}: {error}", path.display()))?;
        Ok(path)
    };
    let mut sources = Vec::new();
    for (seed, name) in (1..).zip(["booth.wav", "floor.wav", "relay.wav"]) {
        let mut random = random::Random::new(seed);
        let samples = (0..RATE * SECONDS).map(|_| random.word() as i16 / 2).collect();
        sources.push(write(name, &wav::bytes(&Sound { rate: RATE, samples }))?);
    }
    let program = write("mixing.desk", include_bytes!("../../../examples/mixing/mixing.desk"))?;
    let preset = write("preset.desk", b"ram 0: 7000H 7000H 7000H\n")?;
    let (track, record) = (folder.join("track.wav"), Some(folder.join("track.record")));
    Ok(Order { images: Images::default(), scripts: vec![program, preset], sources, track, record })
}
