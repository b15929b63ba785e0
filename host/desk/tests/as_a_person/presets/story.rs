//! The example in `examples/presets`: a channel map for each of two days, and half of the second.

use super::{half_is_refused, preset, Cells};
use crate::folder::{desk_in, examples, repository, Folder};
use crate::run::examples::every_expectation_is_held;
use bemulatsho::Loading;
use desk::scripts::given::Images;
use desk::scripts::reader::Reader;
use desk::tracks::prepared::prepared;
use std::fs;

const FILES: [&str; 4] = ["monday.hex", "tuesday.hex", "tuesday-half.hex", "two_languages.desk"];

fn read(name: &str) -> Vec<u8> {
    fs::read(examples().join("presets").join(name)).expect("an example")
}

/// The example in a folder of its own.
fn copied() -> Folder {
    let folder = Folder::new();
    FILES.into_iter().for_each(|name| folder.write(name, read(name)));
    folder
}

/// The cells that a day's script gives, each in its line.
fn map(day: &str) -> Cells {
    let script = Reader::of_files(&[examples().join(format!("presets/{day}.desk"))]);
    prepared(&Images::default(), script, &mut Vec::new()).expect("a channel map").machine.cells().try_into().expect("128 cells")
}

#[test]
fn the_presets_are_what_desk_writes_of_the_maps() {
    for day in ["monday", "tuesday"] {
        let written = desk_in(&repository(), &format!("preset write examples/presets/{day}.desk --out -"));
        written.is_done(&String::from_utf8(read(&format!("{day}.hex"))).expect("text"));
        written.is_done(&preset(&map(day)));
    }
    let tuesday = preset(&map("tuesday"));
    let half: Vec<&str> = tuesday.split_inclusive('\n').take(8).chain([":00000001FF\n"]).collect();
    assert_eq!(String::from_utf8(read("tuesday-half.hex")), Ok(half.concat()));
}

/// Each track has one language, a booth's whole gain, on both days; the days differ in both halves.
#[test]
fn each_track_has_one_language() {
    for day in ["monday", "tuesday"] {
        let map = map(day);
        for track in 0..16 {
            let gains: Vec<u16> = (0..8).map(|booth| map[16 * booth + track]).collect();
            assert_eq!(gains.iter().filter(|gain| **gain == 0x4000).count(), 1, "{day}, track {}: {gains:04X?}", track + 1);
        }
    }
    let (monday, tuesday) = (map("monday"), map("tuesday"));
    assert!(monday[..64] != tuesday[..64] && monday[64..] != tuesday[64..]);
}

/// Half of Tuesday over Monday: some tracks have two languages, and track 3 is one of them.
#[test]
fn half_of_tuesday_over_monday_puts_two_languages_on_a_track() {
    let mut mixed = map("monday");
    mixed[..64].copy_from_slice(&map("tuesday")[..64]);
    let languages = |track: usize| (0..8).filter(|booth| mixed[16 * booth + track - 1] == 0x4000).count();
    assert_eq!(languages(3), 2);
}

#[test]
fn the_script_holds() {
    let ran = desk_in(&repository(), "run examples/presets/two_languages.desk");
    assert_eq!((ran.status, ran.told.as_str(), ran.printed.matches("out: 0 done, value ").count()), (0, "", 3), "{ran:?}");
}

#[test]
fn every_expectation_of_the_script_is_held() {
    every_expectation_is_held(&copied(), "two_languages.desk");
}

/// In Tuesday's place its half is refused with 15 in its ninth line, and nothing is played.
#[test]
fn half_a_preset_in_tuesdays_place_is_refused_and_nothing_is_played() {
    let folder = copied();
    let script = folder.text("two_languages.desk");
    let line = script.lines().position(|line| line == "patch preset tuesday.hex").expect("Tuesday") + 1;
    folder.write("half.desk", script.replace("patch preset tuesday.hex", "patch preset tuesday-half.hex"));
    let told = format!("half.desk:{line}:14: tuesday-half.hex:{}", half_is_refused());
    folder.desk("run half.desk").is_refused(2, &told);
    folder.desk("trace half.desk").is_refused(2, &told);
    folder.desk("preset write half.desk --out left.hex").is_refused(2, &told);
    assert!(!folder.names().contains(&"left.hex".to_string()));
}

/// The same by the library's own call, on the RAM that Monday left.
#[test]
fn the_library_keeps_every_cell_for_the_half_and_replaces_every_cell_for_the_whole() {
    let (monday, tuesday) = (map("monday"), map("tuesday"));
    let mut ram = [0xffff; 128];
    assert_eq!(bemulatsho::load_preset(&read("monday.hex"), &mut ram), Loading { number: 0, line: 17 });
    assert_eq!(ram, monday);
    assert_eq!(bemulatsho::load_preset(&read("tuesday-half.hex"), &mut ram), Loading { number: 15, line: 9 });
    assert_eq!(ram, monday);
    assert_eq!(bemulatsho::load_preset(&read("tuesday.hex"), &mut ram), Loading { number: 0, line: 17 });
    assert_eq!(ram, tuesday);
    // Cells that are the same on both days are written too.
    let mut ram = tuesday.map(|cell| !cell);
    assert_eq!(bemulatsho::load_preset(&read("tuesday.hex"), &mut ram), Loading { number: 0, line: 17 });
    assert_eq!(ram, tuesday);
}
