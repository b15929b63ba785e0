//! Records of the 77C25 carry their chip, in both forms; one without it is the 77P20's, as ever.

use super::{run_text, THROUGH};
use crate::folder::{Folder, Ran};

/// Two samples through a program that sends what it takes, by way of TRB, from the last words.
const RECORD: &str = "chip 77C25\nrate 8000\nsources booth\n\
    program 7FCH: 969FF0H 0000BEH 000009H A01FF0H\n\
    set PC 7FCH\nset TRB 5\nexpect TRB 5\nram FFH: 1\nexpect ram FFH 1\n\
    in 1234H\nrun 3\nout\nsent 1234H\nin 8000H\nrun 4\nout\nsent 8000H\nsamples 2\n";

const AGREES: &str = "2 samples (0:00:00.000), all as the chip sends them; the chip is the 77C25";

fn checked(folder: &Folder, record: &str) -> Ran {
    folder.desk(&format!("check-track {record}"))
}

fn counted(agrees: u32, differs: u32, unreadable: u32) -> String {
    format!("1 track: agrees {agrees}, differs {differs}, incomplete 0, unreadable {unreadable}\n")
}

#[test]
fn a_record_is_checked_on_its_chip_in_both_forms() {
    let folder = Folder::new().with("x.record", RECORD);
    assert_eq!(folder.desk("run --quiet x.record"), Ran::new(0, "", ""));
    checked(&folder, "x.record").is_done(&format!("x.record: agrees: {AGREES}\n{}", counted(1, 0, 0)));
    folder.desk("convert x.record c.record").is_done("");
    assert_eq!(folder.read("c.record")[..12], *b"\x89BMR\r\n\x1a\n\x01\0\0\0", "the header is that of every record");
    checked(&folder, "c.record").is_done(&format!("c.record: agrees: {AGREES}\n{}", counted(1, 0, 0)));
    assert_eq!(folder.desk("run --quiet c.record"), Ran::new(0, "", ""));
    folder.desk("convert c.record y.record").is_done("");
    assert!(folder.text("y.record").starts_with("chip 77C25\nrate 8000\n"), "{}", folder.text("y.record"));
    folder.desk("convert y.record d.record").is_done("");
    assert_eq!(folder.read("d.record"), folder.read("c.record"));
}

#[test]
fn what_the_77c25_does_not_send_differs() {
    let folder = Folder::new().with("x.record", RECORD.replace("sent 8000H", "sent 8001H"));
    let ran = checked(&folder, "x.record");
    assert_eq!((ran.status, ran.told.as_str()), (1, "desk: the track does not agree with the chip\n"));
    assert!(ran.printed.contains("the desk sent 8001H, the chip sends 8000H"), "{ran:?}");
    assert!(ran.printed.contains("; the chip is the 77C25\n"), "{ran:?}");
    assert_eq!(folder.desk("check-track x.record --report page.html").status, 1);
    let page = folder.text("page.html");
    assert!(page.contains("the chip is the 77C25") && page.contains("TRB 1234H") && page.contains("MOV @TRB,SIM"), "{page}");
}

/// A record that lost its chip is played on the 77P20, and what is told names the 77C25.
#[test]
fn a_record_without_its_chip_is_not_misjudged() {
    let record = "program 0: 968000H 0000B9H A00000H\nin 1\nrun 2\nout\nsent 1\nsamples 1\n";
    let ran = checked(&Folder::new().with("x.record", record), "x.record");
    assert_eq!(ran.status, 1);
    let told = "x.record: differs: x.record:3:1: `run 2` is refused after 0 words: refusal 4, the word at PC is 2^23 or more \
                (968000H has 24 bits: a program of the 77C25 stands behind `chip 77C25`); no `reply` expects it; ";
    assert!(ran.printed.starts_with(told), "{ran:?}");
    let ran = checked(&Folder::new().with("x.record", RECORD.replace("chip 77C25\n", "")), "x.record");
    let told = "x.record: unreadable: x.record:3:9: \"7FCH:\": expected an address below 200H; the 77C25 has 800H, behind `chip 77C25`\n";
    assert_eq!((ran.status, ran.printed), (2, format!("{told}{}", counted(0, 0, 1))));
}

#[test]
fn a_record_of_one_chip_with_a_program_of_the_other_is_unreadable() {
    let folder = Folder::new().with("larger.desk", THROUGH).with("smaller.desk", "chip 77P20\nprogram 0: 4B4000H 0000B9H 500000H\n");
    for (chip, script, other) in [("77P20", "larger.desk", "77C25"), ("77C25", "smaller.desk", "77P20")] {
        folder.write("x.record", format!("chip {chip}\ninclude {script}\nin 1\nrun 2\nout\nsent 1\nsamples 1\n"));
        let ran = checked(&folder, "x.record");
        let note = if chip == "77C25" { "; the chip is the 77C25" } else { "" };
        let told =
            format!("x.record: unreadable: {script}:1:1: `chip {other}`: expected once; `chip {chip}` stands at x.record:1:1{note}\n");
        assert_eq!((ran.status, ran.printed), (2, format!("{told}{}", counted(0, 0, 1))));
    }
    folder.write("x.record", "include larger.desk\nin 1\nrun 2\nout\nsent 1\nsamples 1\n");
    checked(&folder, "x.record")
        .is_done(&format!("x.record: agrees: 1 sample, as the chip sends it; the chip is the 77C25\n{}", counted(1, 0, 0)));
}

#[test]
fn a_record_that_says_the_77p20_is_as_one_that_says_nothing() {
    let record = "program 0: 4B4000H 0000B9H 500000H\nin 1\nrun 2\nout\nsent 1\nsamples 1\n";
    let folder = Folder::new().with("x.record", record).with("y.record", format!("chip 77P20\n{record}"));
    let said = |name: &str| checked(&folder, name).printed.replace(name, "");
    assert_eq!(said("x.record"), said("y.record"));
    assert!(!said("y.record").contains("77P20"), "{}", said("y.record"));
    assert_eq!(run_text(record), run_text(&format!("chip 77P20\n{record}")));
}
