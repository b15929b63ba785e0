//! `desk preset check`: a line a file in the order given, the counts, and the status.

use super::{cells, half_is_refused, preset, whole_and_half, Cells};
use crate::folder::{ended, Folder, Ran};
use crate::images::{record, with_line, END};

const GOOD: &str = "good: 128 cells, 128 not 0";

/// The cells with some of them 0.
fn with_zeros(zeros: usize) -> Cells {
    let mut cells = cells();
    cells[..zeros].fill(0);
    cells
}

#[test]
fn good_presets_are_counted_with_the_cells_that_are_used() {
    let folder = whole_and_half().with("monday.hex", preset(&with_zeros(32))).with("empty.hex", preset(&[0; 128]));
    folder.desk("preset check p.hex").is_done(&format!("p.hex: {GOOD}\n1 preset: good 1, refused 0, unreadable 0\n"));
    let lines = format!("monday.hex: good: 128 cells, 96 not 0\nempty.hex: good: 128 cells, 0 not 0\np.hex: {GOOD}\n");
    folder.desk("preset check monday.hex empty.hex p.hex").is_done(&format!("{lines}3 presets: good 3, refused 0, unreadable 0\n"));
    folder
        .desk("preset check p.hex ./p.hex")
        .is_done(&format!("p.hex: {GOOD}\n./p.hex: {GOOD}\n2 presets: good 2, refused 0, unreadable 0\n"));
}

#[test]
fn each_file_gets_its_line_in_the_order_given() {
    let folder = whole_and_half();
    let gone = "gone.hex: unreadable: gone.hex: cannot read: No such file or directory (os error 2)";
    let half = format!("half.hex: refused: half.hex:{}", half_is_refused());
    let good = format!("p.hex: {GOOD}");
    let printed = format!("{gone}\n{half}\n{good}\n3 presets: good 1, refused 1, unreadable 1\n");
    assert_eq!(folder.desk("preset check gone.hex half.hex p.hex"), Ran::new(2, printed, "desk: 2 of 3 presets are not good\n"));
    let printed = format!("{good}\n{half}\n2 presets: good 1, refused 1, unreadable 0\n");
    assert_eq!(folder.desk("preset check p.hex half.hex"), Ran::new(1, printed, "desk: 1 of 2 presets is not good\n"));
    let printed = format!("{half}\n1 preset: good 0, refused 1, unreadable 0\n");
    assert_eq!(folder.desk("preset check half.hex"), Ran::new(1, printed, "desk: the preset is not good\n"));
    let printed = format!("{gone}\n1 preset: good 0, refused 0, unreadable 1\n");
    assert_eq!(folder.desk("preset check gone.hex"), Ran::new(2, printed, "desk: the preset is not good\n"));
}

#[test]
fn a_hyphen_is_standard_input_once() {
    let folder = whole_and_half();
    let text = preset(&cells());
    let printed = format!("p.hex: {GOOD}\nstandard input: {GOOD}\n2 presets: good 2, refused 0, unreadable 0\n");
    folder.desk_with_input("preset check p.hex -", text.as_bytes()).is_done(&printed);
    let ran = folder.desk_with_input("preset check -", &text.as_bytes()[..700]);
    assert!(ran.status == 1 && ran.printed.starts_with("standard input: refused: standard input:16:"), "{ran:?}");
    let ran = folder.desk("preset check - p.hex -");
    assert!(ran.status == 2 && ran.told.starts_with("desk: - a second time: standard input can be read once: "), "{ran:?}");
}

#[track_caller]
fn would_be_written_otherwise(text: &str, from: usize) {
    let folder = Folder::new().with("x.hex", text);
    let said = format!("x.hex: {GOOD}; desk would write it otherwise, from line {from} on");
    folder.desk("preset check x.hex").is_done(&format!("{said}\n1 preset: good 1, refused 0, unreadable 0\n"));
}

/// Whatever the loader takes is good; the writer has one text for it.
#[test]
fn a_preset_that_desk_would_write_otherwise_is_good_and_told() {
    let text = preset(&cells());
    let lines: Vec<&str> = text.split_inclusive('\n').collect();
    would_be_written_otherwise(&text.replace('\n', "\r\n"), 1);
    would_be_written_otherwise(&text.to_lowercase(), 1);
    would_be_written_otherwise(&with_line(&text, 9, &lines[8].to_lowercase()), 9);
    would_be_written_otherwise(&with_line(&text, 17, ":00000001ff\n"), 17);
    would_be_written_otherwise(&with_line(&text, 17, ":00123401B9\n"), 17);
    would_be_written_otherwise(&[&lines[..3], &[lines[4], lines[3]], &lines[5..]].concat().concat(), 4);
    would_be_written_otherwise(&[&lines[..16], &[":00000000", "00\n", END]].concat().concat(), 17);
    let bytes: Vec<u8> = cells().iter().flat_map(|cell| cell.to_le_bytes()).collect();
    would_be_written_otherwise(&(record(0, 0, &bytes[..255]) + &record(255, 0, &bytes[255..]) + END), 1);
    let single: String = (240..256).map(|at| record(at, 0, &bytes[at..at + 1])).collect();
    would_be_written_otherwise(&(lines[..15].concat() + &single + END), 16);
}

#[cfg(target_os = "linux")]
#[test]
fn a_full_disk_keeps_no_verdict_back() {
    let folder = whole_and_half();
    for (file, status, last) in [("p.hex", 2, ""), ("half.hex", 1, "\ndesk: the preset is not good\n")] {
        let full = std::fs::OpenOptions::new().write(true).open("/dev/full").expect("a full device");
        let ran = ended(folder.command(&["preset", "check", file]).stdout(full).spawn().expect("desk runs"));
        assert!(ran.status == status && ran.told.starts_with("desk: standard output: cannot write: "), "{ran:?}");
        assert!(ran.told.ends_with(last), "{ran:?}");
    }
}
