//! The lines that name an image: a file beside the script, in quotes where its name would be read as something else.

use super::{last_cell, program, LAST_CELL};
use crate::folder::Folder;

#[track_caller]
fn is_bad(line: &str, told: &str) {
    let folder = Folder::new().with("s.desk", format!("run 1\n{line}\n")).with("a.hex", program(&[]));
    folder.desk("run s.desk").is_refused(2, &format!("s.desk:2:{told}"));
}

const FILE: &str = "the name of an Intel HEX file";

#[test]
fn what_is_neither_an_address_nor_one_file_is_told() {
    let address = format!("an address and a colon, as 01FH:, or {FILE}");
    is_bad("program", &format!("8: the line ends: expected {address}"));
    is_bad("program a.hex b.hex", &format!("9: \"a.hex\": expected {address}"));
    is_bad("program a.hex 1", &format!("9: \"a.hex\": expected {address}"));
    is_bad("program \"a.hex\" b.hex", &format!("9: \"a.hex\": expected {address}"));
    is_bad("program 1FH", &format!("9: \"1FH\": expected {address}"));
    is_bad("program 99999999999", &format!("9: \"99999999999\": expected {address}"));
    is_bad("program a.hex:", &format!("9: \"a.hex:\": expected {address}"));
    is_bad("data", &format!("5: the line ends: expected {FILE}"));
    is_bad("data a.hex b.hex", "12: \"b.hex\": expected the end of the line");
    is_bad("data 0: 1", &format!("6: \"0:\": expected {FILE}; cells from an address on stand in `rom`"));
    is_bad("program -", "9: \"-\": expected a file");
    is_bad("data -", "6: \"-\": expected a file");
}

/// Only the whole of an image is named: nothing is patched by a file, and cells stand behind an address.
#[test]
fn no_other_statement_takes_a_file() {
    let address = "expected an address and a colon, as 01FH:";
    is_bad("patch program a.hex", &format!("15: \"a.hex\": {address}"));
    is_bad("patch data a.hex", "7: \"data\": expected program, rom, ram or preset");
    is_bad("rom a.hex", &format!("5: \"a.hex\": {address}"));
    is_bad("ram a.hex", &format!("5: \"a.hex\": {address}"));
}

#[test]
fn a_name_that_could_be_something_else_stands_in_quotes() {
    for name in ["my program.hex", "12", "1FH", "0:", "#1"] {
        let folder =
            last_cell().with(name, program(&LAST_CELL)).with("s.desk", format!("program \"{name}\"\ndata data.hex\ninclude runs.desk\n"));
        folder.desk("run --quiet s.desk").is_done("");
    }
}

#[test]
fn an_image_stands_beside_the_script_that_names_it() {
    let folder = Folder::new().with("top.desk", "include parts/part.desk\nrun 2\nexpect PC 2\nexpect RP 1FFH\n");
    folder.write("parts/part.desk", "program images/p.hex\n");
    folder.write("parts/images/p.hex", program(&LAST_CELL));
    folder.desk("run --quiet top.desk").is_done("");
    let path = folder.0.join("parts/images/p.hex");
    folder.write("absolute.desk", format!("program {}\nrun 2\nexpect RP 1FFH\n", path.display()));
    folder.desk("run --quiet absolute.desk").is_done("");
}

#[test]
fn nothing_is_loaded_behind_the_number_of_samples() {
    let folder = Folder::new().with("s.desk", "samples 0\nprogram none.hex\n");
    folder.desk("run s.desk").is_refused(2, "s.desk:2:1: a statement: expected nothing after the `samples` at s.desk:1:1");
}

/// An image is loaded where its statement stands: what ran before it ran on the words that were there.
#[test]
fn an_image_may_be_loaded_between_two_runs() {
    let folder = last_cell().with("s.desk", "run 2\nexpect A 0\nprogram program.hex\ndata data.hex\nset PC 0\nrun 2\nexpect A FFF8H\n");
    folder.desk("run --quiet s.desk").is_done("");
    folder.desk("convert s.desk s.record").is_done("");
    folder.desk("run --quiet s.record").is_done("");
}

/// A compact record holds statements and names no file.
#[test]
fn a_record_that_was_converted_needs_its_images_no_more() {
    let folder = last_cell().with("s.desk", "program program.hex\ndata data.hex\ninclude runs.desk\n");
    folder.desk("convert s.desk s.record").is_done("");
    folder.desk("convert s.record again.desk").is_done("");
    for name in ["program.hex", "data.hex", "runs.desk", "s.desk"] {
        std::fs::remove_file(folder.0.join(name)).expect("a file");
    }
    folder.desk("run --quiet s.record").is_done("");
    folder.desk("run --quiet again.desk").is_done("");
    assert_eq!(folder.text("again.desk").lines().count(), 5);
}
