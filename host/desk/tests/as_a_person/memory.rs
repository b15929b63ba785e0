//! However long a track is, its check takes the same memory.

use crate::folder::{ended, Folder};
use crate::held::held;
use random::Random;
use std::process::Child;
use std::thread::sleep;
use std::time::Duration;

/// Seconds of sound, and how many kilobytes more the longer may take: holding the words that were sent, and nothing else, takes some 500.
const SHORT: usize = 2;
const LONG: usize = 8;
const MOST: u64 = 320;

/// A folder with so many seconds of noise at 48 kHz, sent by a program that sends what comes in, and its record.
fn seconds(count: usize) -> Folder {
    let folder = Folder::new().with("through.desk", "program 0: 4B4000H 0000B9H 500000H\n");
    let mut random = Random::new(count as u64);
    folder.write_sound("booth.wav", 48000, &(0..48000 * count).map(|_| random.word() as i16).collect::<Vec<i16>>());
    assert_eq!(folder.desk("mix through.desk --in booth.wav --out track.wav --record track.record").status, 0);
    folder
}

/// The most memory that a process was seen to hold, in kilobytes.
fn peak(child: &mut Child) -> u64 {
    let mut most = 0;
    while child.try_wait().expect("desk runs").is_none() {
        most = most.max(held(child.id()).unwrap_or(0));
        sleep(Duration::from_millis(1));
    }
    assert!(most > 0, "the memory of the program can be seen");
    most
}

/// The memory of a call, which is done and tells how many samples there were.
fn taken(folder: &Folder, line: &str, seconds: usize) -> u64 {
    let mut child = folder.command(&line.split_whitespace().collect::<Vec<&str>>()).spawn().expect("desk runs");
    let peak = peak(&mut child);
    let ran = ended(child);
    assert!(ran.status == 0 && ran.printed.contains(&format!(": {} samples", 48000 * seconds)), "{ran:?}");
    peak
}

/// A look may miss the most that was held, and the system may give a program more than it needs: what counts is the most of some tries of the
/// short one, and the least of some tries of the long one.
#[track_caller]
fn is_bounded(line: &str) {
    let (short, long) = (seconds(SHORT), seconds(LONG));
    let most = (0..3).map(|_| taken(&short, line, SHORT)).max().unwrap_or(0);
    let least = (0..3).map(|_| taken(&long, line, LONG)).min().unwrap_or(u64::MAX);
    assert!(least <= most + MOST, "{most} kB for {SHORT} seconds, {least} kB for {LONG}");
}

#[cfg(target_os = "linux")]
#[test]
fn the_check_of_a_compact_record_does_not_hold_it() {
    is_bounded("check-track track.record");
}

#[cfg(target_os = "linux")]
#[test]
fn the_check_of_sounds_does_not_hold_them() {
    is_bounded("check-track --program through.desk --in booth.wav --sent track.wav");
}

#[cfg(target_os = "linux")]
#[test]
fn a_mix_does_not_hold_its_sounds_nor_its_record() {
    is_bounded("mix through.desk --in booth.wav --out other.wav --record other.record");
}
