//! What stands on the command line besides a command's own options: `--version`, and `--` before names of files.

use crate::folder::Folder;

#[test]
fn the_version_is_that_of_the_release_and_of_the_library() {
    let folder = Folder::new();
    let printed = format!("desk {}, interface {}\n", env!("CARGO_PKG_VERSION"), bemulatsho::version());
    folder.desk("--version").is_done(&printed);
    folder.desk("-V").is_done(&printed);
    folder.desk("--version now").is_refused(2, "\"now\": expected nothing after --version");
}

#[test]
fn behind_two_hyphens_every_word_is_a_file() {
    let folder = Folder::new().with("-s.desk", "run 1\n").with("--help", "run 2\n").with("--", "run 3\n").with("-h", "samples 0\n");
    folder.desk("run -- -s.desk").is_done("run 1: 0 done, 1 word\n");
    folder.desk("run --quiet -- -s.desk").is_done("");
    folder.desk("run -- --help").is_done("run 2: 0 done, 2 words\n");
    folder.desk("run -- --").is_done("run 3: 0 done, 3 words\n");
    folder.desk("trace --count 1 -- -s.desk").is_done("     1  000H  000000H  NOP\n");
    folder.desk("convert -- -s.desk -new").is_done("");
    assert!(folder.names().contains(&"-new".to_string()));
    let checked = folder.desk("check-track -- -h --help");
    assert!(checked.printed.starts_with("-h: incomplete: ") && checked.printed.contains("\n--help: incomplete: "), "{checked:?}");
    let second = folder.desk("run -- -s.desk --quiet");
    assert!(second.status == 2 && second.told.starts_with("desk: \"--quiet\" is a second script: "), "{second:?}");
}

#[test]
fn behind_two_hyphens_a_mix_has_its_scripts() {
    let folder = Folder::new().with("-through.desk", "program 0: 4B4000H 0000B9H 500000H\n");
    folder.write_sound("a.wav", 8000, &[1, 2]);
    assert_eq!(folder.desk("mix --in a.wav --out b.wav -- -through.desk").status, 0);
    assert_eq!(folder.sound("b.wav"), folder.sound("a.wav"));
}

#[test]
fn behind_two_hyphens_an_example_has_its_folder() {
    let folder = Folder::new();
    assert_eq!(folder.desk("example -- -sound").status, 0);
    assert_eq!(folder.names(), ["-sound"]);
}

#[test]
fn a_lone_hyphen_is_a_file_behind_two_hyphens_too() {
    let folder = Folder::new();
    folder.desk_with_input("run -- -", b"run 1\n").is_done("run 1: 0 done, 1 word\n");
}

#[cfg(unix)]
#[test]
fn an_argument_that_is_no_text_is_told() {
    use std::os::unix::ffi::OsStrExt;
    let folder = Folder::new();
    let ran = crate::folder::ended(folder.command(&["run"]).arg(std::ffi::OsStr::from_bytes(b"\xff.desk")).spawn().expect("desk runs"));
    ran.is_refused(2, "\"\\xFF.desk\": an argument that is no text");
}
