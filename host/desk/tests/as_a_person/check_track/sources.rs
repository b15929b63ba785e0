//! Which sources are on a track that differs: what a coordinator must know first.

use super::sounds::{evening, noise, CHECK, LENGTH};
use super::Checked;
use crate::folder::Folder;

/// Sends what the chip sends by these gains in place of the preset's 4000H, 2000H and 2D6AH, and checks it by the preset.
#[track_caller]
fn sent_by(gains: &str, sources: &str) -> Checked {
    let folder = evening().with("other.desk", format!("ram 0: {gains}\n"));
    resent(&folder, &format!("mix mixing.desk other.desk --in {sources} --out track.wav"));
    folder.check(CHECK)
}

#[track_caller]
fn resent(folder: &Folder, mix: &str) {
    assert_eq!(folder.desk(mix).status, 0);
}

const SOURCES: &str = "booth.wav floor.wav relay.wav";

#[test]
fn sources_that_are_exchanged_are_named() {
    let checked = sent_by("4000H 2000H 2D6AH", "floor.wav booth.wav relay.wav");
    checked.says("differs", "; booth and floor are exchanged");
    assert!(!checked.sentence.contains("relay"), "{checked:?}");
    sent_by("4000H 2000H 2D6AH", "relay.wav floor.wav booth.wav").says("differs", "; booth and relay are exchanged");
}

#[test]
fn a_source_that_is_not_on_the_track_is_named() {
    sent_by("4000H 0 2D6AH", SOURCES).says("differs", "; floor is not on it");
    sent_by("0 0 2D6AH", SOURCES).says("differs", "; booth and floor are not on it");
}

#[test]
fn a_source_that_should_not_be_on_the_track_is_named() {
    let folder = evening().with("preset.desk", "ram 0: 4000H 0 2D6AH\n");
    folder.check(CHECK).says("differs", "; floor is on it and should not be");
}

#[test]
fn a_source_that_is_too_loud_or_too_soft_or_turned_over_is_named() {
    sent_by("7FFFH 2000H 2D6AH", SOURCES).says("differs", "; booth is 6.0 dB too loud");
    sent_by("4000H 1000H 2D6AH", SOURCES).says("differs", "; floor is 6.0 dB too soft");
    let turned = sent_by("C000H 2000H 2D6AH", SOURCES);
    turned.says("differs", "turned over");
    turned.says("differs", "; booth is ");
}

#[test]
fn a_silent_track_is_told() {
    sent_by("0 0 0", SOURCES).says("differs", "; the track is silent there");
}

#[test]
fn something_that_is_none_of_the_sources_is_told() {
    let folder = evening();
    folder.write_sound("other.wav", 8000, &noise(99, LENGTH));
    resent(&folder, "mix mixing.desk preset.desk --in other.wav other.wav other.wav --out track.wav");
    let checked = folder.check(CHECK);
    checked.says("differs", "; booth, floor and relay are not on it, something that is none of the sources is on it");
}

#[test]
fn the_right_sources_with_small_errors_are_told() {
    let folder = evening();
    let mut samples = folder.sound("track.wav").samples;
    samples.iter_mut().for_each(|sample| *sample ^= 1);
    folder.write_sound("track.wav", 8000, &samples);
    folder.check(CHECK).says("differs", "; the sources on it are the right ones");
}

/// The names are those of the files without folder and ending, or those that the record says.
#[test]
fn sources_are_named_by_their_files() {
    let folder = evening();
    for (from, to) in [("booth.wav", "rooms/Kabine 1.wav"), ("floor.wav", "rooms/Saal.wav")] {
        folder.write(to, folder.read(from));
    }
    resent(&folder, "mix mixing.desk preset.desk --in floor.wav booth.wav relay.wav --out track.wav");
    let words = "check-track --program mixing.desk preset.desk --in rooms/Kabine_1.wav rooms/Saal.wav relay.wav --sent track.wav";
    let words: Vec<String> = words.split(' ').map(|word| word.replace('_', " ")).collect();
    let ran = folder.desk_of(&words.iter().map(String::as_str).collect::<Vec<&str>>());
    super::one(&ran).says("differs", "; Kabine 1 and Saal are exchanged");
}
