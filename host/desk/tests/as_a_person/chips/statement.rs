//! The statement `chip`: once, by a name that is known, and before all that depends on it.

use super::{is_bad, run_text};
use crate::folder::Folder;

#[test]
fn the_77p20_is_the_default_and_may_be_said() {
    let shown = |chip: &str| run_text(&format!("{chip}program 0: 624681H\nrun 1\nexpect A 1234H\nshow\n"));
    let (unsaid, said) = (shown(""), shown("chip 77P20\n"));
    assert_eq!((unsaid.status, &unsaid), (0, &said));
    assert!(!unsaid.printed.contains("TRB") && !unsaid.printed.contains("80H"), "{unsaid:?}");
}

#[test]
fn capitals_and_small_letters_are_read() {
    for line in ["chip 77C25", "CHIP 77c25", "Chip 77C25 # the larger desk"] {
        run_text(&format!("{line}\nset TRB 1\nrun 1\n")).is_done("run 1: 0 done, 1 word\n");
    }
}

#[test]
fn an_unknown_chip_is_told_with_the_nearest() {
    is_bad("chip 77C26\nrun 1\n", "1:6: \"77C26\": expected the name of a chip, perhaps \"77C25\"");
    is_bad("run 1\nchip 77P2\n", "2:6: \"77P2\": expected the name of a chip, perhaps \"77P20\"");
    is_bad("chip 8088\n", "1:6: \"8088\": expected the name of a chip: 77P20, 77C25");
    is_bad("chip\n", "1:5: the line ends: expected the name of a chip, 77P20 or 77C25");
    is_bad("chip 77C25 77P20\n", "1:12: \"77P20\": expected the end of the line");
    is_bad("chips 77C25\n", "1:1: \"chips\": expected a statement, perhaps \"chip\"");
}

#[test]
fn a_chip_is_said_once() {
    is_bad("chip 77C25\n\n chip 77P20\n", "3:2: `chip 77P20`: expected once; `chip 77C25` stands at s.desk:1:1");
    is_bad("chip 77C25\nchip 77C25\n", "2:1: `chip 77C25`: expected once; `chip 77C25` stands at s.desk:1:1");
    let folder = Folder::new().with("s.desk", "chip 77C25\ninclude other.desk\n").with("other.desk", "chip 77P20\n");
    folder.desk("run s.desk").is_refused(2, "other.desk:1:1: `chip 77P20`: expected once; `chip 77C25` stands at s.desk:1:1");
}

#[test]
fn a_chip_stands_before_all_that_depends_on_it() {
    for line in
        ["program 0: 0", "rom 0: 0", "ram 0: 0", "patch ram 0: 0", "set A 1", "run 1", "out", "expect A 0", "expect ram 0 0", "show"]
    {
        let (name, after) = (line.split(' ').next().expect("a name"), format!("{line}\nchip 77C25\n"));
        is_bad(&after, &format!("2:1: `chip 77C25`: expected before all that depends on it; a `{name}` stands at s.desk:1:1"));
        is_bad(
            &after.replace("77C25", "77P20"),
            &format!("2:1: `chip 77P20`: expected before all that depends on it; a `{name}` stands at s.desk:1:1"),
        );
    }
    run_text("rate 48000\nsources booth\nchip 77C25\nset TRB 1\nrun 1\n").is_done("run 1: 0 done, 1 word\n");
}

#[test]
fn an_included_script_may_say_it_and_is_followed() {
    let folder =
        Folder::new().with("s.desk", "include chip.desk\nprogram 7FFH: C48D0EH\nset PC 7FFH\nrun 1\nexpect TRB 1234H\nexpect PC 0\n");
    folder.write("chip.desk", "# the larger desk\nchip 77C25\n");
    folder.desk("run s.desk").is_done("run 1: 0 done, 1 word\n");
}
