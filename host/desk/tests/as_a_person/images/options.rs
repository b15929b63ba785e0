//! `--program`, `--data` and `--preset`: each once, each with a file; and a file of Intel HEX where a script belongs.

use super::{last_cell, sends_cell};

#[test]
fn bad_use_says_what_was_expected() {
    let folder = last_cell();
    let cases = [
        ("--program", "--program: expected an Intel HEX file"),
        ("--data --program program.hex", "--data: expected an Intel HEX file"),
        ("--program - runs.desk", "--program -: expected a file"),
        ("--data - runs.desk", "--data -: expected a file"),
        ("--preset", "--preset: expected an Intel HEX file"),
        ("--preset - runs.desk", "--preset -: expected a file"),
        ("--preset a.hex --preset a.hex runs.desk", "--preset a second time"),
        ("--program program.hex --program program.hex runs.desk", "--program a second time"),
        ("--data data.hex runs.desk --data data.hex", "--data a second time"),
    ];
    for command in ["run", "trace", "mix"] {
        for (arguments, told) in cases {
            let ran = folder.desk(&format!("{command} {arguments}"));
            assert!(ran.status == 2 && ran.told.starts_with(&format!("desk: {told}: expected `desk {command} ")), "{ran:?}");
        }
    }
    for command in ["run", "trace"] {
        let ran = folder.desk(&format!("{command} --program program.hex --data data.hex"));
        assert!(ran.status == 2 && ran.told.starts_with(&format!("desk: no script: expected `desk {command} ")), "{ran:?}");
    }
}

const HEX: &str = "this is Intel HEX: give it with --program, --data or --preset, or name it in a script";

#[test]
fn an_image_where_a_script_belongs_is_told() {
    let folder = last_cell().with("s.desk", "run 1\ninclude program.hex\n").with("marked.hex", format!("\u{feff}{}", super::program(&[])));
    folder.write_sound("a.wav", 8000, &[1]);
    let lines =
        ["run program.hex", "trace program.hex", "mix program.hex --in a.wav --out b.wav", "convert program.hex b.record", "run s.desk"];
    for line in lines.into_iter().chain(["mix --program program.hex program.hex --in a.wav --out b.wav"]) {
        folder.desk(line).is_refused(2, &format!("program.hex:1:1: {HEX}"));
    }
    folder.desk_with_input("run -", super::program(&[]).as_bytes()).is_refused(2, &format!("standard input:1:1: {HEX}"));
    folder.desk("run marked.hex").is_refused(2, &format!("marked.hex:1:1: {HEX}"));
    let ran = folder.desk("check-track data.hex");
    assert!(ran.status == 2 && ran.printed.starts_with(&format!("data.hex: unreadable: data.hex:1:1: {HEX}\n")), "{ran:?}");
}

/// Further down a colon is only a word that is no statement.
#[test]
fn a_colon_further_down_is_an_unknown_statement() {
    let folder = last_cell().with("s.desk", "run 1\n:00000001FF\n");
    let ran = folder.desk("run s.desk");
    assert!(
        ran.told.starts_with("desk: s.desk:2:1: \":00000001FF\": expected a statement: chip, include, program, data, rom, "),
        "{ran:?}"
    );
}

/// The options may stand anywhere, and behind `--` a script may have any name.
#[test]
fn options_stand_before_and_behind_the_scripts() {
    let folder = sends_cell().with("-s.desk", "run 1\nexpect PC 0\n");
    folder.desk("run --quiet --program program.hex -- -s.desk").is_done("");
    assert_eq!(folder.desk("mix --in a.wav --data data.hex --out b.wav --program program.hex").status, 0);
    assert_eq!(folder.sound("b.wav").samples, [super::SENT; 3]);
}
