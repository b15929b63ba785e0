//! An address is given once, by whatever; a patch goes over it.

use super::{last_cell, program, sends_cell, LAST_CELL};

#[test]
fn an_address_that_an_image_and_a_line_give_is_refused_with_both_places() {
    let cases = [
        ("program program.hex\nprogram 1: 0\n", "s.desk:2:1: program 001H was given before, at s.desk:1:1"),
        ("program 1FFH: 0\n program program.hex\n", "s.desk:2:2: program 1FFH was given before, at s.desk:1:1"),
        ("program program.hex\nprogram program.hex\n", "s.desk:2:1: program 000H was given before, at s.desk:1:1"),
        ("include other.desk\nprogram program.hex\n", "s.desk:2:1: program 000H was given before, at other.desk:1:1"),
    ];
    for (text, told) in cases {
        let folder = last_cell().with("s.desk", text).with("other.desk", "program program.hex\n");
        folder.desk("run s.desk").is_refused(2, &format!("{told}: expected each once, or `patch program`"));
    }
    let folder = last_cell().with("s.desk", "data data.hex\nrom 511: 1\n");
    folder.desk("run s.desk").is_refused(2, "s.desk:2:1: rom 1FFH was given before, at s.desk:1:1: expected each once, or `patch rom`");
}

#[test]
fn an_address_that_an_option_and_a_script_give_is_refused_with_both_places() {
    let folder = last_cell().with("words.desk", "run 1\nprogram 5: 0\n").with("names.desk", "program program.hex\ndata data.hex\n");
    let program = "was given before, at program.hex: expected each once, or `patch program`";
    for command in ["run", "trace"] {
        folder
            .desk(&format!("{command} --program program.hex words.desk"))
            .is_refused(2, &format!("words.desk:2:1: program 005H {program}"));
        folder
            .desk(&format!("{command} --program program.hex names.desk"))
            .is_refused(2, &format!("names.desk:1:1: program 000H {program}"));
    }
    let told = "names.desk:2:1: rom 000H was given before, at data.hex: expected each once, or `patch rom`";
    folder.desk("run --data data.hex names.desk").is_refused(2, told);
    folder.desk_with_input("run --data data.hex -", b"data data.hex").is_refused(2, &told.replace("names.desk:2", "standard input:1"));
    folder.desk("convert words.desk words.record").is_done("");
    folder.desk("run --program program.hex words.record").is_refused(2, &format!("words.record: statement 2: program 005H {program}"));
}

#[test]
fn a_mix_refuses_an_address_that_is_given_twice() {
    let folder = sends_cell().with("words.desk", "ram 0: 1\nprogram 3: 500000H\n");
    let told = "words.desk:2:1: program 003H was given before, at program.hex: expected each once, or `patch program`";
    folder.desk("mix --program program.hex words.desk --in a.wav --out b.wav").is_refused(2, told);
    assert!(!folder.names().contains(&"b.wav".to_string()));
}

#[test]
fn a_patch_goes_over_an_image() {
    let folder = last_cell().with("s.desk", "program program.hex\ndata data.hex\npatch rom 511: 1\nrun 2\nexpect A 8\n");
    folder.desk("run --quiet s.desk").is_done("");
    folder.write("s.desk", "patch program 0: 603FC5H\npatch rom 1FEH: 2\nrun 2\nexpect A 10H\n");
    folder.desk("run --quiet --program program.hex --data data.hex s.desk").is_done("");
    folder.write("s.desk", "patch program 0: 0\nprogram program.hex\n");
    let told = "s.desk:2:1: program 000H was given before, at s.desk:1:1: expected each once, or `patch program`";
    folder.desk("run s.desk").is_refused(2, told);
}

/// The program in words and in an image, side by side, in one memory of two.
#[test]
fn a_program_and_a_data_rom_have_addresses_of_their_own() {
    let folder = last_cell().with("p.hex", program(&LAST_CELL)).with("s.desk", "program p.hex\nrom 511: 1\nram 0: 1\nrun 2\nexpect A 8\n");
    folder.desk("run --quiet s.desk").is_done("");
}
