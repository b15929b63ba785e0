//! Tracks whose program is an image: by options and in a list.

use super::{data, program, sends_cell, with_line, SENT};
use crate::folder::{Folder, Ran};

const CHECK: &str = "check-track --program program.hex --data data.hex --in a.wav --sent b.wav";

const AGREES: &str = "agrees: 3 samples (0:00:00.000), all as the chip sends them";

/// The line of one track, and the last line.
fn one(name: &str, sentence: &str, [agrees, differs, unreadable]: [u32; 3]) -> String {
    format!("{name}: {sentence}\n1 track: agrees {agrees}, differs {differs}, incomplete 0, unreadable {unreadable}\n")
}

/// A folder with the track that the chip sends.
fn sent() -> Folder {
    let folder = sends_cell();
    folder.write_sound("b.wav", 8000, &[SENT; 3]);
    folder
}

#[track_caller]
fn is_unreadable(folder: &Folder, line: &str, name: &str, sentence: &str) {
    let told = "desk: the track does not agree with the chip\n";
    assert_eq!(folder.desk(line), Ran::new(2, one(name, &format!("unreadable: {sentence}"), [0, 0, 1]), told));
}

#[test]
fn a_track_is_checked_against_its_images() {
    let folder = sent().with("cell.desk", "patch rom 0: 0123H\n").with("other.hex", data(0, 0x0124)).with("twice.desk", "rom 0: 0\n");
    folder.desk(CHECK).is_done(&one("b.wav", AGREES, [1, 0, 0]));
    folder.desk("check-track --sent b.wav --in a.wav --data data.hex --program program.hex").is_done(&one("b.wav", AGREES, [1, 0, 0]));
    let patched = CHECK.replace("data.hex", "other.hex").replace("program.hex", "program.hex cell.desk");
    folder.desk(&patched).is_done(&one("b.wav", AGREES, [1, 0, 0]));
    let ran = folder.desk(&CHECK.replace("data.hex", "other.hex"));
    assert!(ran.status == 1 && ran.printed.starts_with("b.wav: differs: from 0:00:00.000 (sample 0) on; "), "{ran:?}");
    let twice = CHECK.replace("program.hex", "program.hex twice.desk");
    is_unreadable(&folder, &twice, "b.wav", "twice.desk:1:1: rom 000H was given before, at data.hex: expected each once, or `patch rom`");
}

/// Scripts and the image stand in any order, and a script may name an image as well.
#[test]
fn an_image_stands_among_the_scripts_of_a_program() {
    let folder = sent().with("gain.desk", "ram 0: 1\n").with("all.desk", "program program.hex\ndata data.hex\n");
    for program in ["program.hex gain.desk", "gain.desk program.hex"] {
        folder.desk(&CHECK.replace("program.hex", program)).is_done(&one("b.wav", AGREES, [1, 0, 0]));
    }
    folder.desk("check-track --program all.desk gain.desk --in a.wav --sent b.wav").is_done(&one("b.wav", AGREES, [1, 0, 0]));
}

#[test]
fn a_second_image_of_the_program_is_told() {
    let folder = sent().with("other.hex", program(&[]));
    let told = "other.hex: program 000H was given before, at program.hex: expected each once, or `patch program`";
    is_unreadable(&folder, &CHECK.replace("program.hex", "program.hex other.hex"), "b.wav", told);
}

/// It is told from a script by what it begins with, which takes nothing from a pipe.
#[test]
fn an_image_comes_through_a_pipe_among_the_scripts() {
    let folder = sent().with("words.desk", "program 0: 4B4000H 0000B1H 000069H 500000H\n");
    for (file, line) in
        [("program.hex", CHECK.replace("program.hex", "/dev/stdin")), ("words.desk", CHECK.replace("program.hex", "/dev/stdin"))]
    {
        folder.shell(&format!("cat {file} | desk {line}")).is_done(&one("b.wav", AGREES, [1, 0, 0]));
    }
}

#[test]
fn a_refused_image_makes_a_track_unreadable() {
    let folder = sent().with("bad.hex", with_line(&program(&[]), 2, ":020000040000FA\n"));
    let told = "bad.hex:2:8: refusal 14, record type: 04 is neither 00 (data) nor 01 (end): \":020000040000FA\"";
    is_unreadable(&folder, &CHECK.replace("program.hex", "bad.hex"), "b.wav", told);
    is_unreadable(&folder, &CHECK.replace("data.hex", "bad.hex"), "b.wav", told);
    is_unreadable(
        &folder,
        &CHECK.replace("data.hex", "none.hex"),
        "b.wav",
        "none.hex: cannot read: No such file or directory (os error 2)",
    );
}

#[test]
fn a_list_names_images() {
    let folder = sent().with("evening/rom 1.hex", data(0, 0x0123)).with("evening/words.desk", "program ../program.hex\n");
    let list = "track English program ../program.hex data \"rom 1.hex\" in ../a.wav sent ../b.wav\n\
                TRACK \"Channel 2\" PROGRAM words.desk DATA ../data.hex IN ../a.wav SENT c.wav\n";
    folder.write("evening/tracks", list);
    folder.write_sound("evening/c.wav", 8000, &[SENT; 3]);
    let counts = "2 tracks: agrees 2, differs 0, incomplete 0, unreadable 0";
    folder.desk("check-track --tracks evening/tracks").is_done(&format!("English: {AGREES}\nChannel 2: {AGREES}\n{counts}\n"));
}

/// The track says where the image was named.
#[test]
fn a_refused_image_of_a_list_is_told_with_its_track() {
    let folder = sent().with("bad.hex", "").with("tracks", "track English program program.hex data bad.hex in a.wav sent b.wav\n");
    let told = "bad.hex: refusal 15, address outside, given twice or missing: the text is empty";
    is_unreadable(&folder, "check-track --tracks tracks", "English", told);
}

/// A record in text may name its images, as any script.
#[test]
fn a_record_names_its_images() {
    let folder = sent().with("x.record", format!("program program.hex\ndata data.hex\nin 1\nrun 3\nout\nsent {SENT}\nsamples 1\n"));
    folder.desk("check-track x.record").is_done(&one("x.record", "agrees: 1 sample, as the chip sends it", [1, 0, 0]));
    folder.write("data.hex", "");
    let told = "x.record:2:6: data.hex: refusal 15, address outside, given twice or missing: the text is empty";
    is_unreadable(&folder, "check-track x.record", "x.record", told);
}
