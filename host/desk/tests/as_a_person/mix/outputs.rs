//! Track and record never replace a file that is read, by whatever name, nor each other.

use super::{mixing, MIX};
use crate::folder::Folder;
use std::os::unix::fs::symlink;

#[track_caller]
fn is_kept(folder: &Folder, line: &str, output: &str) {
    let before = folder.read(output);
    let ran = folder.desk(line);
    assert_eq!((ran.status, ran.printed.as_str()), (2, ""), "{line}: {ran:?}");
    assert!(ran.told.starts_with(&format!("desk: {output}: would replace ")), "{line}: {ran:?}");
    assert!(ran.told.ends_with(", which is read: expected another file\n"), "{line}: {ran:?}");
    assert!(folder.read(output) == before, "{output} is as it was");
}

#[test]
fn no_file_that_is_read_is_replaced() {
    let folder = mixing().with("top.desk", "include parts/middle.desk\n").with("parts/middle.desk", "include ../preset.desk\n");
    std::fs::hard_link(folder.0.join("floor.wav"), folder.0.join("hard.wav")).expect("a hard link");
    symlink("relay.wav", folder.0.join("link.wav")).expect("a link");
    symlink("parts", folder.0.join("other")).expect("a link");
    let mix = MIX.replace("preset.desk", "top.desk");
    let sources = ["booth.wav", "./booth.wav", "parts/../floor.wav", "hard.wav", "link.wav"];
    let scripts = ["mixing.desk", "top.desk", "parts/middle.desk", "other/middle.desk", "preset.desk"];
    for output in sources.into_iter().chain(scripts) {
        is_kept(&folder, &mix.replace("track.wav", output), output);
        is_kept(&folder, &format!("{mix} --record {output}"), output);
    }
    assert!(!folder.names().contains(&"track.wav".to_string()));
}

#[test]
fn track_and_record_are_two_files() {
    let folder = mixing();
    let before = folder.names();
    for (out, record) in [("track.wav", "track.wav"), ("track.wav", "./track.wav"), ("./track.wav", "track.wav")] {
        let ran = folder.desk(&format!("{} --record {record}", MIX.replace("track.wav", out)));
        ran.is_refused(2, &format!("{out}: to be written twice: expected two files"));
    }
    assert_eq!(folder.names(), before);
    folder.write("old.wav", "old");
    std::fs::hard_link(folder.0.join("old.wav"), folder.0.join("hard.wav")).expect("a hard link");
    let ran = folder.desk(&format!("{} --record hard.wav", MIX.replace("track.wav", "old.wav")));
    ran.is_refused(2, "old.wav: to be written twice: expected two files");
    assert_eq!(folder.text("hard.wav"), "old");
}

#[test]
fn a_link_to_another_file_stays_a_link() {
    let folder = mixing().with("kept/old.wav", "old");
    symlink("kept/old.wav", folder.0.join("track.wav")).expect("a link");
    assert_eq!(folder.desk(MIX).status, 0);
    assert!(folder.0.join("track.wav").is_symlink());
    assert_eq!(folder.sound("kept/old.wav").samples.len(), 3);
}

#[test]
fn nothing_else_is_left_in_the_folder() {
    let folder = mixing();
    let mut expected = folder.names();
    assert_eq!(folder.desk(&format!("{MIX} --record track.record")).status, 0);
    expected.extend(["track.record".to_string(), "track.wav".to_string()]);
    expected.sort();
    assert_eq!(folder.names(), expected);
}
