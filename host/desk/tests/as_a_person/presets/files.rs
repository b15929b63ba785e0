//! Files that are no preset at all.

use super::whole_and_half;
use crate::folder::Ran;
use std::fs::File;

#[test]
fn a_file_that_cannot_be_read_is_told() {
    let folder = whole_and_half();
    std::fs::create_dir(folder.0.join("inside")).expect("a folder");
    for (name, why) in [("none.hex", "No such file or directory (os error 2)"), ("inside", "Is a directory (os error 21)")] {
        let told = format!("{name}: cannot read: {why}");
        let printed = format!("{name}: unreadable: {told}\n1 preset: good 0, refused 0, unreadable 1\n");
        assert_eq!(folder.desk(&format!("preset check {name}")), Ran::new(2, printed, "desk: the preset is not good\n"));
        for line in ["preset show X", "preset diff X p.hex", "preset diff p.hex X", "run --preset X expects.desk"] {
            folder.desk(&line.replace('X', name)).is_refused(2, &told);
        }
        for (statement, column) in [("preset", 8), ("patch preset", 14)] {
            folder.write("s.desk", format!("run 1\n{statement} {name}\n"));
            folder.desk("run s.desk").is_refused(2, &format!("s.desk:2:{column}: {told}"));
        }
    }
}

#[test]
fn a_file_that_is_too_large_is_unreadable() {
    let folder = whole_and_half();
    File::create(folder.0.join("large.hex")).and_then(|file| file.set_len((1 << 24) + 1)).expect("a large file");
    let told = "large.hex: more than 16777216 bytes: expected an image in Intel HEX";
    folder.desk("preset show large.hex").is_refused(2, told);
    let printed = format!("large.hex: unreadable: {told}\n1 preset: good 0, refused 0, unreadable 1\n");
    assert_eq!(folder.desk("preset check large.hex"), Ran::new(2, printed, "desk: the preset is not good\n"));
}

/// The largest that is read is looked at, and refused in its first line.
#[test]
fn a_large_file_of_something_else_is_refused() {
    let folder = whole_and_half();
    File::create(folder.0.join("large.hex")).and_then(|file| file.set_len(1 << 24)).expect("a large file");
    let ran = folder.desk("preset check large.hex p.hex");
    let line = "large.hex: refused: large.hex:1:1: refusal 12, bad character or length: \"\\0\": expected a colon: \"\\0\\0";
    assert!(ran.status == 1 && ran.printed.starts_with(line), "{ran:?}");
    assert!(ran.printed.ends_with("2 presets: good 1, refused 1, unreadable 0\n"), "{ran:?}");
}
