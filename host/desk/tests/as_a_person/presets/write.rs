//! `desk preset write`: the RAM that a script leaves, in the rules' own form.

use super::{cells, preset, ram, whole_and_half, Cells};
use crate::folder::{ended, Folder};

/// Puts TR into cell after cell, one a word: MOV @MEM,TR DPINC.
const STORES: &str = "program 0: 00103FH 00103FH 00103FH\nset TR 1234H\n";

/// Cells of which the first have this, and all others are 0.
fn beginning_with(first: &[u16]) -> Cells {
    let mut cells = [0; 128];
    cells[..first.len()].copy_from_slice(first);
    cells
}

#[test]
fn the_file_is_the_one_that_the_rules_describe() {
    let folder = Folder::new().with("s.desk", ram(&cells()));
    folder.desk("preset write s.desk --out new.hex").is_done("new.hex: 128 cells, 128 of them not 0\n");
    assert_eq!(folder.text("new.hex"), preset(&cells()));
    let text = folder.text("new.hex");
    assert_eq!((text.len(), text.lines().count(), text.lines().last()), (716, 17, Some(":00000001FF")));
    assert!(text.starts_with(":10000000C3A5"), "low byte first: {text}");
    assert_eq!(folder.names(), ["new.hex", "s.desk"]);
}

#[test]
fn an_empty_script_leaves_zeros() {
    let folder = Folder::new().with("s.desk", "");
    folder.desk("preset write s.desk --out new.hex").is_done("new.hex: 128 cells, 0 of them not 0\n");
    assert_eq!(folder.text("new.hex"), preset(&[0; 128]));
}

/// What the program stored stands in the preset, and nothing of the script is printed.
#[test]
fn the_ram_is_that_behind_the_last_event() {
    let folder = Folder::new().with("s.desk", format!("{STORES}ram 0: 7 8 9 10\nrun 3\nshow\nexpect ram 2 1234H\n"));
    folder.desk("preset write --out new.hex s.desk").is_done("new.hex: 128 cells, 4 of them not 0\n");
    assert_eq!(folder.text("new.hex"), preset(&beginning_with(&[0x1234, 0x1234, 0x1234, 10])));
}

#[test]
fn a_hyphen_is_standard_input_or_output() {
    let folder = Folder::new().with("s.desk", ram(&cells()));
    folder.desk("preset write s.desk --out -").is_done(&preset(&cells()));
    folder.desk_with_input("preset write - --out -", ram(&cells()).as_bytes()).is_done(&preset(&cells()));
    folder.desk_with_input("preset write - --out new.hex", b"ram 0: 1\n").is_done("new.hex: 128 cells, 1 of them not 0\n");
    assert_eq!(folder.text("new.hex"), preset(&beginning_with(&[1])));
    assert_eq!(folder.names(), ["new.hex", "s.desk"]);
}

#[test]
fn images_are_given_and_named() {
    let folder = whole_and_half().with("s.desk", "run 1\n").with("named.desk", "preset p.hex\npatch ram 7FH: 0\n");
    folder.write("program.hex", crate::images::program(&[0x603fe5, 0x00006f]));
    folder.write("data.hex", crate::images::data(511, 0x0123));
    folder.desk("preset write --preset p.hex s.desk --out -").is_done(&preset(&cells()));
    let mut last = cells();
    last[127] = 0;
    folder.desk("preset write named.desk --out -").is_done(&preset(&last));
    // LDI @RP,1FFH; MOV @MEM,RO: the last cell of the data ROM goes to the first of the RAM.
    folder.write("stores.desk", "run 2\n");
    let mut first = cells();
    first[0] = 0x0123 << 3;
    let line = "preset write --program program.hex --data data.hex --preset p.hex stores.desk --out -";
    folder.desk(line).is_done(&preset(&first));
}

/// A record is a script too, in either form.
#[test]
fn a_record_is_played_as_well() {
    let folder = Folder::new().with("s.desk", format!("{STORES}run 2\n"));
    folder.desk("convert s.desk s.record").is_done("");
    folder.desk("preset write s.record --out -").is_done(&preset(&beginning_with(&[0x1234, 0x1234])));
}

/// What was written is a preset: it is loaded again, and written as before.
#[test]
fn a_preset_that_was_written_is_loaded_again() {
    let folder = whole_and_half().with("s.desk", ram(&cells())).with("named.desk", "preset new.hex\n");
    assert_eq!(folder.desk("preset write s.desk --out new.hex").status, 0);
    folder.desk("run --preset new.hex expects.desk").is_done("");
    assert_eq!(folder.desk("preset write named.desk --out again.hex").status, 0);
    assert!(folder.read("again.hex") == folder.read("new.hex"));
}

#[cfg(target_os = "linux")]
#[test]
fn a_full_disk_is_told() {
    let folder = Folder::new().with("s.desk", "");
    let full = std::fs::OpenOptions::new().write(true).open("/dev/full").expect("a full device");
    let ran = ended(folder.command(&["preset", "write", "s.desk", "--out", "-"]).stdout(full).spawn().expect("desk runs"));
    assert!(ran.status == 2 && ran.told.starts_with("desk: standard output: cannot write: "), "{ran:?}");
}
