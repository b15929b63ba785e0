//! Files that are no image at all, and every part of one.

use super::{data, last_cell, program, LAST_CELL};
use crate::folder::Folder;
use desk::fault::Spot;
use desk::images::{load, Image};
use std::fs::File;
use std::path::Path;

#[test]
fn a_file_that_cannot_be_read_is_told() {
    let folder = last_cell();
    std::fs::create_dir(folder.0.join("inside")).expect("a folder");
    for (name, why) in [("none.hex", "No such file or directory (os error 2)"), ("inside", "Is a directory (os error 21)")] {
        for option in ["--program", "--data"] {
            folder.desk(&format!("run {option} {name} runs.desk")).is_refused(2, &format!("{name}: cannot read: {why}"));
        }
        for (statement, column) in [("program", 9), ("data", 6)] {
            folder.write("s.desk", format!("run 1\n{statement} {name}\n"));
            folder.desk("run s.desk").is_refused(2, &format!("s.desk:2:{column}: {name}: cannot read: {why}"));
        }
    }
}

#[test]
fn a_file_that_is_too_large_is_told() {
    let folder = last_cell().with("s.desk", "data large.hex\n");
    let large = File::create(folder.0.join("large.hex")).expect("a file");
    large.set_len((1 << 24) + 1).expect("a large file");
    let told = "large.hex: more than 16777216 bytes: expected an image in Intel HEX";
    folder.desk("run --program large.hex runs.desk").is_refused(2, told);
    folder.desk("run s.desk").is_refused(2, &format!("s.desk:1:6: {told}"));
    large.set_len(1 << 24).expect("a large file");
    let told = format!("large.hex:1:1: refusal 12, bad character or length: \"\\0\": expected a colon: \"{}\" ..", "\\0".repeat(60));
    folder.desk("run --program large.hex runs.desk").is_refused(2, &told);
}

/// What comes through a pipe is read once: an option's file is held, one that a script names is not.
#[test]
fn an_image_comes_through_a_pipe_by_an_option() {
    let folder = last_cell().with("s.desk", "program /dev/stdin\n").with("i.desk", "include /dev/stdin\n");
    folder.shell("cat program.hex | desk run --quiet --program /dev/stdin --data data.hex runs.desk").is_done("");
    let told = "/dev/stdin: named in a script, and can be read only once: expected a file";
    folder.shell("cat program.hex | desk run s.desk").is_refused(2, told);
    folder.shell("cat runs.desk | desk trace i.desk >printed").is_refused(2, told);
}

/// However it is cut, it is refused in its last line, and never taken for whole.
#[test]
fn an_image_that_is_cut_anywhere_is_refused() {
    for (image, text) in [(Image::Program, program(&LAST_CELL)), (Image::Data, data(0, 0x1fff).replace('\n', "\r\n"))] {
        assert!(load(image, Path::new("whole"), text.as_bytes()).is_ok());
        for end in 0..text.len() {
            let cut = &text[..end];
            let fault = load(image, Path::new("cut"), cut.as_bytes()).expect_err(cut);
            let line = match fault.place.map(|place| place.spot) {
                Some(Spot::Line { line, .. } | Spot::WholeLine(line)) => line,
                Some(Spot::WholeFile) => 0,
                other => panic!("{other:?}"),
            };
            assert_eq!(line as usize, cut.split_inclusive('\n').count(), "{fault}");
            let number = if cut.is_empty() || cut.ends_with('\n') { [15, 16] } else { [12, 12] };
            assert!(number.iter().any(|number| fault.message.starts_with(&format!("refusal {number}, "))), "{fault}");
        }
    }
}

#[test]
fn some_cuts_as_a_person_sees_them() {
    let folder = Folder::new().with("s.desk", "program p.hex\n");
    let text = program(&LAST_CELL);
    for end in [0, 1, 9, 43, 44, 45, 3000, text.len() - 12, text.len() - 1] {
        folder.write("p.hex", &text[..end]);
        let ran = folder.desk("run s.desk");
        assert!((ran.status, ran.printed.as_str()) == (2, "") && ran.told.starts_with("desk: s.desk:1:9: p.hex:"), "{ran:?}");
    }
}

#[test]
fn files_that_are_something_else_are_told() {
    let folder = last_cell().with("sound.bin", b"RIFF\x24\0\0\0WAVEfmt ").with("words.desk", "program 0: 1\n");
    let why = "refusal 12, bad character or length";
    folder
        .desk("run --program sound.bin runs.desk")
        .is_refused(2, &format!("sound.bin:1:1: {why}: \"R\": expected a colon: \"RIFF$\\0\\0\\0WAVEfmt \""));
    folder
        .desk("run --data words.desk runs.desk")
        .is_refused(2, &format!("words.desk:1:1: {why}: \"p\": expected a colon: \"program 0: 1\""));
}
