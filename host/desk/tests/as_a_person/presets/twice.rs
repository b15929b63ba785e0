//! A cell is given once, by whatever; a patch goes over it.

use super::{ram, sends_cell, whole_and_half};

const CELL: &str = "expected each once, or `patch ram`";
const ALL: &str = "expected each once, or `patch ram` or `patch preset`";

#[test]
fn a_cell_that_is_given_twice_is_refused_with_both_places() {
    let all = ram(&[1; 128]);
    let cases = [
        ("preset p.hex\npreset p.hex\n", format!("s.desk:2:1: ram 000H was given before, at s.desk:1:1: {ALL}")),
        ("ram 7FH: 1\n preset p.hex\n", format!("s.desk:2:2: ram 07FH was given before, at s.desk:1:1: {ALL}")),
        ("preset p.hex\nram 40H: 1\n", format!("s.desk:2:1: ram 040H was given before, at s.desk:1:1: {CELL}")),
        ("include other.desk\npreset p.hex\n", format!("s.desk:2:1: ram 000H was given before, at other.desk:1:1: {ALL}")),
        ("patch preset p.hex\npreset p.hex\n", format!("s.desk:2:1: ram 000H was given before, at s.desk:1:1: {ALL}")),
        (&format!("preset p.hex\n{all}"), format!("s.desk:2:1: ram 000H was given before, at s.desk:1:1: {ALL}")),
    ];
    for (text, told) in cases {
        let folder = whole_and_half().with("s.desk", text).with("other.desk", "preset p.hex\n");
        folder.desk("run s.desk").is_refused(2, &told);
    }
}

#[test]
fn a_cell_that_an_option_and_a_script_give_is_refused_with_both_places() {
    let folder = sends_cell().with("names.desk", "preset p.hex\n").with("cell.desk", "run 1\nram 5: 0\n");
    for command in ["run", "trace"] {
        let told = format!("names.desk:1:1: ram 000H was given before, at p.hex: {ALL}");
        folder.desk(&format!("{command} --preset p.hex names.desk")).is_refused(2, &told);
        let told = format!("cell.desk:2:1: ram 005H was given before, at p.hex: {CELL}");
        folder.desk(&format!("{command} --preset p.hex cell.desk")).is_refused(2, &told);
    }
    let told = format!("names.desk:1:1: ram 000H was given before, at p.hex: {ALL}");
    folder.desk("mix --preset p.hex sends.desk names.desk --in a.wav --out b.wav").is_refused(2, &told);
    folder.desk("preset write --preset p.hex names.desk --out b.hex").is_refused(2, &told);
    let checked = folder.desk("check-track --program sends.desk names.desk --preset p.hex --in a.wav --sent a.wav");
    assert!(checked.status == 2 && checked.printed.starts_with(&format!("a.wav: unreadable: {told}\n")), "{checked:?}");
    assert!(!folder.names().iter().any(|name| name.starts_with("b.")));
}

#[test]
fn a_program_and_a_data_rom_have_addresses_of_their_own() {
    let folder = whole_and_half().with("s.desk", "program 0: 1\nrom 0: 1\npreset p.hex\ninclude expects.desk\n");
    folder.desk("run s.desk").is_done("");
}

#[test]
fn a_patch_goes_over_a_preset() {
    let folder = whole_and_half().with("s.desk", "patch ram 7FH: 9\nexpect ram 7FH 9\nexpect ram 0 A5C3H\n");
    folder.desk("run --preset p.hex s.desk").is_done("");
    folder.write("s.desk", "patch preset p.hex\ninclude expects.desk\n");
    folder.desk("run --preset p.hex s.desk").is_done("");
}
