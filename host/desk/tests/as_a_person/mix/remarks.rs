//! What a person should know of a mix is told on the standard error; the track is written all the same.

use super::{mixing, MIX, THROUGH};
use crate::folder::Folder;

/// Mixes, and hands out what was told; the mix is done.
#[track_caller]
fn told(folder: &Folder) -> String {
    let ran = folder.desk(MIX);
    assert_eq!((ran.status, ran.printed.lines().count()), (0, 1), "{ran:?}");
    ran.told
}

#[test]
fn nothing_is_told_of_an_ordinary_mix() {
    assert_eq!(told(&mixing()), "");
}

#[test]
fn sources_of_unequal_lengths_are_told() {
    let folder = mixing();
    folder.write_sound("floor.wav", 8000, &[1, 2]);
    folder.write_sound("relay.wav", 8000, &[]);
    let expected = "desk: floor.wav: 2 samples, the longest source has 3: silence is mixed for the rest\n\
                    desk: relay.wav: 0 samples, the longest source has 3: silence is mixed for the rest\n";
    assert_eq!(told(&folder), expected);
    assert_eq!(folder.sound("track.wav").samples.len(), 3);
}

#[test]
fn a_silent_source_is_told() {
    let folder = mixing();
    folder.write_sound("relay.wav", 8000, &[0, 0, 0]);
    assert_eq!(told(&folder), "desk: relay.wav: silent from beginning to end\n");
}

/// A second of zeros at the end: the recording was stretched to its length, or went on without its source.
#[test]
fn a_padded_source_is_told_from_a_second_on() {
    let folder = mixing();
    let padded = |zeros: usize| [vec![1000; 3], vec![0; zeros]].concat();
    for name in ["booth.wav", "floor.wav"] {
        folder.write_sound(name, 8000, &vec![500; 8003]);
    }
    folder.write_sound("relay.wav", 8000, &padded(8000));
    assert_eq!(told(&folder), "desk: relay.wav: padded: the last 8000 samples are digital silence\n");
    folder.write_sound("relay.wav", 8000, &[padded(7999), vec![1]].concat());
    assert_eq!(told(&folder), "");
}

#[test]
fn a_silent_track_is_told() {
    let folder = mixing().with("preset.desk", "ram 0: 0 0 0\n");
    assert_eq!(told(&folder), "desk: the track is silent: every sample is 0\n");
    assert_eq!(folder.sound("track.wav").samples, [0, 0, 0]);
}

#[test]
fn a_silent_source_and_its_silent_track_are_both_told() {
    let folder = Folder::new().with("through.desk", THROUGH);
    folder.write_sound("a.wav", 8000, &[0; 5]);
    let ran = folder.desk("mix through.desk --in a.wav --out b.wav");
    let told = "desk: a.wav: silent from beginning to end\ndesk: the track is silent: every sample is 0\n";
    assert_eq!((ran.status, ran.told.as_str()), (0, told));
}
