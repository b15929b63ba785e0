//! `preset FILE` and `patch preset FILE` in a script.

use super::{cells, expected, half_is_refused, preset, ram, whole_and_half};
use crate::folder::Folder;

#[test]
fn every_cell_is_where_its_address_is() {
    let folder = whole_and_half().with("s.desk", "preset p.hex\ninclude expects.desk\n");
    folder.desk("run s.desk").is_done("");
    folder.write("s.desk", "PRESET p.hex # a comment\n");
    folder.desk("convert s.desk s.record").is_done("");
    folder.desk("convert s.record -").is_done(&ram(&cells()));
}

#[test]
fn a_patch_gives_every_cell_anew() {
    let others = cells().map(|cell| !cell);
    let folder = whole_and_half().with("other.hex", preset(&others)).with("others.desk", expected(&others));
    for before in ["preset other.hex\ninclude others.desk\n", "ram 5: 1 2 3\n", "patch preset other.hex\n", ""] {
        folder.write("s.desk", format!("{before}patch preset p.hex\ninclude expects.desk\n"));
        folder.desk("run s.desk").is_done("");
    }
    folder.write("s.desk", "Patch Preset p.hex\n");
    folder.desk("convert s.desk s.record").is_done("");
    folder.desk("convert s.record -").is_done(&format!("patch {}", ram(&cells())));
}

/// It is loaded where its statement stands: what ran before it ran on the cells that were there.
#[test]
fn a_preset_may_be_loaded_between_two_runs() {
    let script = "program 0: 0000F1H 0000F1H 0000F1H\nram 0: 7\nrun 1\nexpect A 7\npatch preset p.hex\nrun 1\nexpect A A5C3H\n\
                  patch ram 0: 8\nrun 1\nexpect A 8\n";
    let folder = whole_and_half().with("s.desk", script);
    folder.desk("run --quiet s.desk").is_done("");
    folder.desk("convert s.desk s.record").is_done("");
    folder.desk("run --quiet s.record").is_done("");
}

#[track_caller]
fn is_bad(line: &str, told: &str) {
    let folder = whole_and_half().with("s.desk", format!("run 1\n{line}\n"));
    folder.desk("run s.desk").is_refused(2, &format!("s.desk:2:{told}"));
}

#[test]
fn what_is_not_one_file_is_told() {
    let file = "the name of an Intel HEX file";
    is_bad("preset", &format!("7: the line ends: expected {file}"));
    is_bad("preset p.hex p.hex", "14: \"p.hex\": expected the end of the line");
    is_bad("preset 0: 1", &format!("8: \"0:\": expected {file}; cells from an address on stand in `ram`"));
    is_bad("preset -", "8: \"-\": expected a file");
    is_bad("patch preset", &format!("13: the line ends: expected {file}"));
    is_bad("patch preset p.hex 1", "20: \"1\": expected the end of the line");
    is_bad("patch preset 0: 1", &format!("14: \"0:\": expected {file}; cells from an address on stand in `patch ram`"));
    is_bad("patch preset -", "14: \"-\": expected a file");
    is_bad("patch p.hex", "7: \"p.hex\": expected program, rom, ram or preset");
    is_bad("patch \"preset\" p.hex", "7: \"preset\": expected program, rom, ram or preset");
    is_bad("pressets p.hex", "1: \"pressets\": expected a statement, perhaps \"preset\"");
    is_bad("\"preset\" p.hex", "1: \"preset\": expected a statement, perhaps \"preset\"");
}

#[test]
fn a_name_that_could_be_something_else_stands_in_quotes() {
    for name in ["my preset.hex", "12", "0:", "#1"] {
        let folder = whole_and_half().with(name, preset(&cells())).with("s.desk", format!("preset \"{name}\"\ninclude expects.desk\n"));
        folder.desk("run s.desk").is_done("");
    }
}

#[test]
fn a_preset_stands_beside_the_script_that_names_it() {
    let folder = Folder::new().with("top.desk", "include parts/part.desk\ninclude parts/expects.desk\n");
    folder.write("parts/part.desk", "patch preset days/p.hex\n");
    folder.write("parts/days/p.hex", preset(&cells()));
    folder.write("parts/expects.desk", expected(&cells()));
    folder.desk("run top.desk").is_done("");
}

/// First where it was named, then what is wrong with it and where; nothing of the script is played.
#[test]
fn half_a_preset_keeps_a_script_from_being_played() {
    let told = format!("half.hex:{}", half_is_refused());
    for (statement, column) in [("preset", 8), ("patch preset", 14)] {
        let script = format!("set A 1\nrun 1\nshow\n{statement} half.hex\n");
        let folder = whole_and_half().with("s.desk", &script);
        for command in ["run", "run --json", "trace"] {
            folder.desk(&format!("{command} s.desk")).is_refused(2, &format!("s.desk:4:{column}: {told}"));
        }
        folder.desk_with_input("run -", script.as_bytes()).is_refused(2, &format!("standard input:4:{column}: {told}"));
        folder.desk("convert s.desk s.record").is_refused(2, &format!("s.desk:4:{column}: {told}"));
        assert!(!folder.names().contains(&"s.record".to_string()));
    }
}

#[test]
fn nothing_is_loaded_behind_the_number_of_samples() {
    let folder = Folder::new().with("s.desk", "samples 0\npatch preset none.hex\n");
    folder.desk("run s.desk").is_refused(2, "s.desk:2:1: a statement: expected nothing after the `samples` at s.desk:1:1");
}

/// A compact record holds the cells and names no file.
#[test]
fn a_record_that_was_converted_needs_its_preset_no_more() {
    let folder = whole_and_half().with("s.desk", "preset p.hex\ninclude expects.desk\npatch preset p.hex\n");
    folder.desk("convert s.desk s.record").is_done("");
    std::fs::remove_file(folder.0.join("p.hex")).expect("a preset");
    folder.desk("run s.record").is_done("");
    assert_eq!(folder.desk("convert s.record -").printed, format!("{}{}patch {}", ram(&cells()), expectations(), ram(&cells())));
}

/// The expectations as a record has them.
fn expectations() -> String {
    cells().iter().enumerate().map(|(at, cell)| format!("expect ram {at:02X}H {cell:04X}H\n")).collect()
}
