//! Tracks that were mixed by a preset: by an option and in a list.

use super::{cells, half_is_refused, preset, sends_cell, sent};
use crate::folder::{Folder, Ran};

const CHECK: &str = "check-track --program sends.desk --preset p.hex --in a.wav --sent b.wav";
const AGREES: &str = "agrees: 3 samples (0:00:00.000), all as the chip sends them";

/// A folder with the track that the chip sends, and the preset of another day.
fn mixed() -> Folder {
    let mut others = cells();
    others[0] ^= 1;
    let folder = sends_cell().with("other.hex", preset(&others));
    folder.write_sound("b.wav", 8000, &[sent(); 3]);
    folder
}

#[test]
fn a_track_is_checked_against_its_preset() {
    let folder = mixed();
    let counts = "1 track: agrees 1, differs 0, incomplete 0, unreadable 0";
    folder.desk(CHECK).is_done(&format!("b.wav: {AGREES}\n{counts}\n"));
    let ran = folder.desk(&CHECK.replace("p.hex", "other.hex"));
    assert!(ran.status == 1 && ran.printed.starts_with("b.wav: differs: from 0:00:00.000 (sample 0) on; "), "{ran:?}");
    let ran = folder.desk(&CHECK.replace("p.hex", "half.hex"));
    assert!(ran.status == 2 && ran.printed.starts_with(&format!("b.wav: unreadable: half.hex:{}\n", half_is_refused())), "{ran:?}");
}

#[test]
fn a_list_names_presets_before_or_behind_a_data_rom() {
    let folder = mixed().with("data.hex", crate::images::data(0, 1));
    let list = "track A program ../sends.desk preset ../p.hex in ../a.wav sent ../b.wav\n\
                TRACK B PROGRAM ../sends.desk DATA ../data.hex PRESET \"p 1.hex\" IN ../a.wav SENT c.wav\n\
                track C program ../sends.desk preset ../other.hex data ../data.hex in ../a.wav sent d.wav\n\
                track D program ../sends.desk \"preset\" in ../a.wav sent e.wav\n";
    folder.write("evening/tracks", list);
    folder.write("evening/p 1.hex", preset(&cells()));
    folder.write("evening/preset", "preset ../p.hex\n");
    for name in ["evening/c.wav", "evening/d.wav", "evening/e.wav"] {
        folder.write_sound(name, 8000, &[sent(); 3]);
    }
    let ran = folder.desk("check-track --tracks evening/tracks");
    let lines: Vec<&str> = ran.printed.lines().collect();
    assert_eq!((ran.status, lines[0], lines[1]), (1, format!("A: {AGREES}").as_str(), format!("B: {AGREES}").as_str()));
    assert!(lines[2].starts_with("C: differs: ") && lines[3] == format!("D: {AGREES}"), "{ran:?}");
}

#[test]
fn half_a_preset_of_a_list_is_told_with_its_track() {
    let folder = mixed().with("tracks", "track English program sends.desk preset half.hex in a.wav sent b.wav\n");
    let counts = "1 track: agrees 0, differs 0, incomplete 0, unreadable 1";
    let printed = format!("English: unreadable: half.hex:{}\n{counts}\n", half_is_refused());
    assert_eq!(folder.desk("check-track --tracks tracks"), Ran::new(2, printed, "desk: the track does not agree with the chip\n"));
}

#[test]
fn no_preset_is_replaced_by_a_report_or_a_track() {
    let folder =
        mixed().with("tracks", "track A program sends.desk preset p.hex in a.wav sent b.wav\n").with("named.desk", "preset p.hex\n");
    let before = folder.read("p.hex");
    for line in [
        format!("{CHECK} --report p.hex"),
        "check-track --tracks tracks --report p.hex".to_string(),
        "mix --preset p.hex sends.desk --in a.wav --out p.hex".to_string(),
        "mix sends.desk named.desk --in a.wav --out c.wav --record p.hex".to_string(),
    ] {
        folder.desk(&line).is_refused(2, "p.hex: would replace p.hex, which is read: expected another file");
        assert!(folder.read("p.hex") == before);
    }
}

/// A record in text may name its preset, as any script.
#[test]
fn a_record_names_its_preset() {
    let sent = sent() as u16;
    let folder = mixed().with("x.record", format!("include sends.desk\npreset p.hex\nin 1\nrun 3\nout\nsent {sent}\nsamples 1\n"));
    let counts = "1 track: agrees 1, differs 0, incomplete 0, unreadable 0";
    folder.desk("check-track x.record").is_done(&format!("x.record: agrees: 1 sample, as the chip sends it\n{counts}\n"));
}
