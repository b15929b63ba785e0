//! Nothing is written for an image that was refused, and no image is replaced.

use super::{program, sends_cell, with_line};
use std::os::unix::fs::symlink;

const MIX: &str = "mix --program program.hex --data data.hex --in a.wav --out b.wav --record b.record";

#[test]
fn a_refused_image_leaves_the_old_track_and_record() {
    let folder = sends_cell().with("bad.hex", with_line(&program(&[]), 1, "\n")).with("s.desk", "program bad.hex\n");
    let before = folder.names();
    let told = "bad.hex:1:1: refusal 12, bad character or length: an empty line: \"\"";
    for image in ["program.hex", "data.hex"] {
        folder.desk(&MIX.replace(image, "bad.hex")).is_refused(2, told);
    }
    folder.desk("mix s.desk --in a.wav --out b.wav --record b.record").is_refused(2, &format!("s.desk:1:9: {told}"));
    folder.desk("convert s.desk b.record").is_refused(2, &format!("s.desk:1:9: {told}"));
    assert_eq!(folder.names(), before);
    folder.write("b.wav", "the old track");
    folder.write("b.record", "the old record");
    folder.desk(&MIX.replace("program.hex", "bad.hex")).is_refused(2, told);
    folder.desk("convert s.desk b.record").is_refused(2, &format!("s.desk:1:9: {told}"));
    assert_eq!((folder.text("b.wav").as_str(), folder.text("b.record").as_str()), ("the old track", "the old record"));
}

/// A script is read before it is played: nothing of it is printed where an image further down is refused.
#[test]
fn a_refused_image_further_down_keeps_a_script_from_being_played() {
    let folder = sends_cell().with("bad.hex", "\n").with("s.desk", "run 1\nshow\nprogram bad.hex\n");
    let told = "s.desk:3:9: bad.hex:1:1: refusal 12, bad character or length: an empty line: \"\"";
    for command in ["run", "run --json", "trace"] {
        folder.desk(&format!("{command} s.desk")).is_refused(2, told);
        folder
            .desk_with_input(&format!("{command} -"), b"run 1\nshow\nprogram bad.hex\n")
            .is_refused(2, &told.replace("s.desk", "standard input"));
    }
}

#[test]
fn no_image_is_replaced() {
    let folder = sends_cell().with("named.desk", "program parts/p.hex\ndata data.hex\n").with("parts/p.hex", program(&super::SENDS_CELL));
    symlink("program.hex", folder.0.join("link")).expect("a link");
    std::fs::hard_link(folder.0.join("data.hex"), folder.0.join("hard")).expect("a hard link");
    let named = "mix named.desk --in a.wav --out b.wav";
    let cases = [
        (MIX.replace("b.wav", "program.hex"), "program.hex"),
        (MIX.replace("b.record", "data.hex"), "data.hex"),
        (MIX.replace("b.record", "link"), "link"),
        (MIX.replace("b.wav", "hard"), "hard"),
        (named.replace("b.wav", "parts/p.hex"), "parts/p.hex"),
        (format!("{named} --record data.hex"), "data.hex"),
        ("convert named.desk parts/p.hex".to_string(), "parts/p.hex"),
    ];
    for (line, output) in cases {
        let before = folder.read(output);
        let ran = folder.desk(&line);
        assert!(ran.status == 2 && ran.told.starts_with(&format!("desk: {output}: would replace ")), "{line}: {ran:?}");
        assert!(folder.read(output) == before, "{output} is as it was");
    }
    assert!(!folder.names().contains(&"b.wav".to_string()));
}

#[test]
fn no_image_is_replaced_by_a_report() {
    let folder = sends_cell().with("tracks", "track A program program.hex data data.hex in a.wav sent b.wav\n");
    assert_eq!(folder.desk("mix --program program.hex --data data.hex --in a.wav --out b.wav").status, 0);
    let check = "check-track --program program.hex --data data.hex --in a.wav --sent b.wav";
    for line in [check, "check-track --tracks tracks"] {
        assert_eq!(folder.desk(line).status, 0, "{line}");
        for report in ["program.hex", "data.hex"] {
            let ran = folder.desk(&format!("{line} --report {report}"));
            ran.is_refused(2, &format!("{report}: would replace {report}, which is read: expected another file"));
        }
    }
}
