//! `--preset`, wherever images are given.

use super::{cells, half_is_refused, ram, sends_cell, sent, whole_and_half};
use crate::folder::Ran;

#[test]
fn an_option_gives_a_script_its_preset() {
    let folder = whole_and_half();
    folder.desk("run --preset p.hex expects.desk").is_done("");
    folder.desk("run expects.desk --preset p.hex").is_done("");
    folder.desk("trace --preset p.hex expects.desk").is_done("");
    folder.desk_with_input("run --preset p.hex -", &folder.read("expects.desk")).is_done("");
    folder.desk("convert expects.desk expects.record").is_done("");
    folder.desk("run --preset p.hex expects.record").is_done("");
    folder.desk("run expects.desk").is_refused(1, "expects.desk:1:1: expected ram 00H A5C3H, found 0000H");
}

/// The three images side by side, each in its own memory.
#[test]
fn a_preset_comes_beside_a_program_and_a_data_rom() {
    let folder = whole_and_half().with("s.desk", "run 1\nexpect A A5C3H\ninclude expects.desk\n");
    folder.write("program.hex", crate::images::program(&[0x0000f1]));
    folder.write("data.hex", crate::images::data(0, 1));
    folder.desk("run --quiet --data data.hex --preset p.hex --program program.hex s.desk").is_done("");
}

#[test]
fn half_a_preset_is_refused_by_every_command() {
    let folder = sends_cell();
    let told = format!("half.hex:{}", half_is_refused());
    for line in ["run --preset half.hex expects.desk", "trace --preset half.hex expects.desk"] {
        folder.desk(line).is_refused(2, &told);
    }
    folder.desk("mix --preset half.hex sends.desk --in a.wav --out b.wav --record b.record").is_refused(2, &told);
    folder.desk("preset write --preset half.hex sends.desk --out b.hex").is_refused(2, &told);
    assert!(!folder.names().iter().any(|name| name.starts_with("b.")));
}

#[test]
fn a_mix_takes_a_preset() {
    let folder = sends_cell().with("named.desk", "preset p.hex\n");
    for arguments in ["--preset p.hex sends.desk", "sends.desk named.desk"] {
        assert_eq!(folder.desk(&format!("mix {arguments} --in a.wav --out b.wav --record b.record")).status, 0);
        assert_eq!(folder.sound("b.wav").samples, [sent(); 3]);
        let text = folder.desk("convert b.record -").printed;
        assert!(text.split_inclusive('\n').any(|line| line == ram(&cells())), "{text}");
    }
}

/// A preset alone is no program.
#[test]
fn a_mix_with_a_preset_needs_a_program() {
    let folder = sends_cell();
    let ran = folder.desk("mix --preset p.hex --in a.wav --out b.wav");
    assert!(ran.status == 2 && ran.told.starts_with("desk: no script: expected one or more before --in, or --program: "), "{ran:?}");
}

#[test]
fn a_preset_where_a_script_belongs_is_told() {
    let told = "p.hex:1:1: this is Intel HEX: give it with --program, --data or --preset, or name it in a script";
    for line in ["run p.hex", "preset write p.hex --out b.hex"] {
        whole_and_half().desk(line).is_refused(2, told);
    }
}

/// An option's file is held; one that a script names is read twice.
#[test]
fn a_preset_comes_through_a_pipe_by_an_option() {
    let folder = whole_and_half().with("s.desk", "preset /dev/stdin\n");
    folder.shell("cat p.hex | desk run --preset /dev/stdin expects.desk").is_done("");
    let told = "/dev/stdin: named in a script, and can be read only once: expected a file";
    folder.shell("cat p.hex | desk run s.desk").is_refused(2, told);
    folder.shell("cat p.hex | desk preset write s.desk --out b.hex").is_refused(2, told);
}

/// A program for one image is none for another.
#[test]
fn an_image_of_another_memory_is_refused() {
    let folder = whole_and_half().with("data.hex", crate::images::data(0, 1));
    let ran = folder.desk("run --preset data.hex expects.desk");
    let outside = "data.hex:17:4: refusal 15, address outside, given twice or missing: 0100H is outside: expected 0000H to 00FFH: ";
    assert!(ran.status == 2 && ran.told.starts_with(&format!("desk: {outside}")), "{ran:?}");
    let ran = folder.desk("run --data p.hex expects.desk");
    assert_eq!(ran, Ran::new(2, "", format!("desk: p.hex:{}", missing())));
}

fn missing() -> String {
    let all = "expected 0000H to 03FFH: \":00000001FF\"";
    format!("17: refusal 15, address outside, given twice or missing: 0100H is missing, and 767 more: {all}\n")
}
