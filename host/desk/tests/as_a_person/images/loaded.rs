//! What is loaded is what runs, by statements and by options.

use super::{data, last_cell, program, record, sends_cell, text, END, LAST_CELL, SENT};
use crate::folder::{Folder, Ran};

const RAN: &str = "run 2: 0 done, 2 words\n";

#[test]
fn a_script_names_its_images() {
    let folder = last_cell().with("s.desk", "program program.hex\nDATA data.hex # a comment\nrun 2\nexpect A FFF8H\n");
    folder.desk("run s.desk").is_done(RAN);
}

#[test]
fn options_give_the_images_of_a_script() {
    let folder = last_cell();
    folder.desk("run --program program.hex --data data.hex runs.desk").is_done(RAN);
    folder.desk("run runs.desk --data data.hex --program program.hex").is_done(RAN);
    folder.desk_with_input("run --data data.hex --program program.hex -", b"run 2\nexpect A FFF8H\n").is_done(RAN);
}

/// Without the data ROM the script does not hold: it is that file which is read.
#[test]
fn one_image_may_come_without_the_other() {
    let folder = last_cell();
    let told = "desk: runs.desk:2:1: expected A FFF8H, found 0000H\n";
    assert_eq!(folder.desk("run --program program.hex runs.desk"), Ran::new(1, RAN, told));
    folder.write("words.desk", "program 0: 603FE5H 000061H\ninclude runs.desk\n");
    folder.desk("run --data data.hex words.desk").is_done(RAN);
    folder.write("cells.desk", "rom 511: 1FFFH\ninclude runs.desk\n");
    folder.desk("run --program program.hex cells.desk").is_done(RAN);
}

#[test]
fn a_trace_runs_the_images() {
    let folder = last_cell().with("s.desk", "program program.hex\ndata data.hex\nrun 2\n");
    let lines = ["     1  000H  603FE5H  LDI @RP,01FFH        RP 1FFH", "     2  001H  000061H  MOV @A,RO            A FFF8H"];
    let printed = lines.map(|line| format!("{line}\n")).concat();
    folder.desk("trace s.desk").is_done(&printed);
    folder.desk("trace --program program.hex --data data.hex runs.desk").is_done(&printed);
}

/// The column of what changed is behind the longest word of the program, wherever the program comes from.
#[test]
fn a_trace_makes_room_for_the_words_of_an_image() {
    let folder = Folder::new().with("p.hex", program(&[0x0a8010])).with("s.desk", "run 1\n").with("w.desk", "program 0: 0A8010H\nrun 1\n");
    let ran = folder.desk("trace w.desk");
    assert!(ran.printed.contains("MOV @NON,A ADD ACCA,IDB  "), "{ran:?}");
    assert_eq!(folder.desk("trace --program p.hex s.desk"), ran);
}

#[test]
fn a_compact_record_is_played_behind_images() {
    let folder = last_cell();
    folder.desk("convert runs.desk runs.record").is_done("");
    folder.desk("run --program program.hex --data data.hex runs.record").is_done(RAN);
    assert_eq!(folder.desk("trace --program program.hex --data data.hex runs.record").status, 0);
}

#[test]
fn every_word_and_cell_is_where_its_address_is() {
    let mut expected = String::new();
    let word = |at: usize| (at as u32).wrapping_mul(0x9e37_79b9) | 0x0100_0000;
    let words: Vec<u8> = (0..512).flat_map(|at| word(at).to_le_bytes()).collect();
    let cells: Vec<u8> = (0..512usize).flat_map(|at| (at as u16).wrapping_mul(0x6b7d).to_le_bytes()).collect();
    expected.push_str("program 000H:");
    (0..512).for_each(|at| expected.push_str(&format!(" {:06X}H", word(at))));
    expected.push_str("\nrom 000H:");
    (0..512usize).for_each(|at| expected.push_str(&format!(" {:04X}H", (at as u16).wrapping_mul(0x6b7d))));
    let folder = Folder::new().with("p.hex", text(&words)).with("d.hex", text(&cells)).with("s.desk", "program p.hex\ndata d.hex\n");
    folder.desk("convert s.desk s.record").is_done("");
    folder.desk("convert s.record -").is_done(&format!("{expected}\n"));
}

/// Small letters, line ends of two characters, records of any length in any order, and some without data.
#[test]
fn a_text_may_be_written_in_many_ways() {
    let bytes: Vec<u8> = LAST_CELL.iter().flat_map(|word| word.to_le_bytes()).chain([0; 2040]).collect();
    let mut backwards: String = (0..2048).rev().map(|at| record(at, 0, &bytes[at..at + 1])).collect();
    backwards.push_str(&record(0xffff, 0, &[]));
    backwards.push_str(":00123401B9\n");
    let long: String = bytes.chunks(255).enumerate().map(|(at, data)| record(255 * at, 0, data)).collect::<String>() + END;
    let ways = [backwards, long, program(&LAST_CELL).to_lowercase(), program(&LAST_CELL).replace('\n', "\r\n")];
    for way in ways {
        let folder = last_cell().with("program.hex", &way);
        folder.desk("run --program program.hex --data data.hex runs.desk").is_done(RAN);
    }
}

/// A word over 23 bits is the processor's to refuse, when it comes to it.
#[test]
fn a_word_that_is_too_wide_is_loaded_and_refused_when_it_runs() {
    let folder = Folder::new().with("p.hex", program(&[0, 0x0080_0000])).with("s.desk", "run 1\nrun 1\n");
    let printed = "run 1: 0 done, 1 word\nrun 1: 4 the word at PC is 2^23 or more, 0 words\n";
    let told = "desk: s.desk:2:1: `run 1` is refused after 0 words: refusal 4, the word at PC is 2^23 or more \
                (800000H has 24 bits: a program of the 77C25 stands behind `chip 77C25`); no `reply` expects it\n";
    assert_eq!(folder.desk("run --program p.hex s.desk"), Ran::new(1, printed, told));
}

#[test]
fn a_cell_that_is_too_wide_is_loaded_and_refused_when_it_is_read() {
    let folder = last_cell().with("data.hex", data(511, 0x2000)).with("s.desk", "run 2\nreply 7 words 1\n");
    let printed = "run 2: 7 the data ROM cell at RP is 8192 or more, 1 word\n";
    folder.desk("run --program program.hex --data data.hex s.desk").is_done(printed);
}

#[test]
fn a_mix_takes_images_and_no_script() {
    let folder = sends_cell();
    let ran = folder.desk("mix --program program.hex --data data.hex --in a.wav --out b.wav");
    ran.is_done("b.wav: 3 samples, 0:00:00.000 at 8000 Hz, 0 clipped, peak 2328 (-23.0 dB)\n");
    assert_eq!(folder.sound("b.wav").samples, [SENT; 3]);
}

#[test]
fn a_mix_takes_images_and_scripts_and_scripts_that_name_images() {
    let folder = sends_cell().with("cell.desk", "rom 0: 1\n").with("all.desk", "data data.hex\nprogram program.hex\n");
    assert_eq!(folder.desk("mix --program program.hex cell.desk --in a.wav --out b.wav").status, 0);
    assert_eq!(folder.sound("b.wav").samples, [8; 3]);
    assert_eq!(folder.desk("mix all.desk --in a.wav --out c.wav").status, 0);
    assert_eq!(folder.sound("c.wav").samples, [SENT; 3]);
}

/// The record of a mix has its images word for word, and needs their files no more.
#[test]
fn a_record_of_a_mix_has_the_images_in_it() {
    let folder = sends_cell();
    let mix = "mix --program program.hex --data data.hex --in a.wav --out b.wav --record b.record";
    assert_eq!(folder.desk(mix).status, 0);
    for name in ["program.hex", "data.hex"] {
        std::fs::remove_file(folder.0.join(name)).expect("an image");
    }
    let text = folder.desk("convert b.record -").printed;
    let fills: Vec<&str> = text.lines().filter(|line| line.starts_with("program ") || line.starts_with("rom ")).collect();
    assert!(
        fills[0].starts_with("program 000H: 4B4000H 0000B1H 000069H 500000H 000000H ") && fills[1].starts_with("rom 000H: 0123H 0000H ")
    );
    assert_eq!(fills.iter().map(|fill| fill.split(' ').count()).collect::<Vec<usize>>(), [514, 514]);
    let counts = "1 track: agrees 1, differs 0, incomplete 0, unreadable 0";
    let agrees = format!("b.record: agrees: 3 samples (0:00:00.000), all as the chip sends them\n{counts}\n");
    folder.desk("check-track b.record").is_done(&agrees);
}
