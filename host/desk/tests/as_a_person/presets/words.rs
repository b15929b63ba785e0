//! The words behind `desk preset`: its own commands, their files and options.

use super::whole_and_half;
use crate::folder::Folder;
use desk::commands::help::TEXTS;

#[test]
fn an_unknown_command_names_the_nearest() {
    let folder = Folder::new();
    let see = "see `desk help preset`";
    folder.desk("preset").is_refused(2, &format!("preset: expected one of write, check, show, diff: {see}"));
    folder.desk("preset chek x.hex").is_refused(2, &format!("\"chek\" is no command of preset, perhaps \"check\": {see}"));
    folder.desk("preset Diff a b").is_refused(2, &format!("\"Diff\" is no command of preset, perhaps \"diff\": {see}"));
    folder.desk("preset load x.hex").is_refused(2, &format!("\"load\" is no command of preset: {see}"));
    folder.desk("preset --out x.hex").is_refused(2, &format!("\"--out\" is no command of preset: {see}"));
    folder.desk("presets show x.hex").is_refused(2, "\"presets\" is no command, perhaps \"preset\": see `desk help`");
}

#[test]
fn help_is_told_wherever_it_is_asked_for() {
    let (_, text) = TEXTS.into_iter().find(|(command, _)| *command == "preset").expect("a text");
    for line in ["help preset", "preset --help", "preset -h", "preset write --help", "preset check x.hex -h", "preset dance --help"] {
        Folder::new().desk(line).is_done(text);
    }
}

#[test]
fn bad_use_of_write_says_what_was_expected() {
    let folder = whole_and_half();
    let usage = "expected `desk preset write SCRIPT --out FILE [--events N] [--program FILE] [--data FILE] [--preset FILE]`, \
                 where - is standard input or output";
    let cases = [
        ("", "no script"),
        ("--out b.hex", "no script"),
        ("expects.desk", "no --out: expected the file of the preset"),
        ("expects.desk --out", "--out: expected the file of the preset"),
        ("expects.desk --out b.hex --out c.hex", "--out a second time"),
        ("expects.desk expects.desk --out b.hex", "\"expects.desk\" is a second script"),
        ("expects.desk - --out b.hex", "\"-\" is a second script"),
        ("expects.desk --out b.hex --events", "--events: expected a number of events"),
        ("expects.desk --out b.hex --events 1 --events 1", "--events a second time"),
        ("expects.desk --out b.hex --preset", "--preset: expected an Intel HEX file"),
        ("expects.desk --out b.hex --preset -", "--preset -: expected a file"),
        ("expects.desk --out b.hex --preset p.hex --preset p.hex", "--preset a second time"),
        ("expects.desk --out b.hex --program -", "--program -: expected a file"),
        ("expects.desk --out b.hex --quiet", "\"--quiet\" is no option"),
    ];
    for (arguments, told) in cases {
        folder.desk(&format!("preset write {arguments}")).is_refused(2, &format!("{told}: {usage}"));
    }
    for text in ["", "ten", "-1", "12A", "18446744073709551616"] {
        let ran = folder.desk_of(&["preset", "write", "expects.desk", "--out", "b.hex", "--events", text]);
        assert!(ran.status == 2 && ran.told.starts_with("desk: --events"), "{ran:?}");
    }
    assert!(!folder.names().contains(&"b.hex".to_string()));
}

#[test]
fn bad_use_of_the_others_says_what_was_expected() {
    let folder = whole_and_half();
    let check = "expected `desk preset check FILE..`, where one of them may be - for standard input";
    let show = "expected `desk preset show FILE`, where - is standard input";
    let diff = "expected `desk preset diff A B`, where one of them may be - for standard input";
    let cases = [
        ("check", "no preset", check),
        ("check --quiet p.hex", "\"--quiet\" is no option", check),
        ("check - -", "- a second time: standard input can be read once", check),
        ("show", "one preset", show),
        ("show p.hex p.hex", "one preset", show),
        ("show --wide p.hex", "\"--wide\" is no option", show),
        ("diff", "two presets", diff),
        ("diff p.hex", "two presets", diff),
        ("diff p.hex p.hex p.hex", "two presets", diff),
        ("diff - -", "- a second time: standard input can be read once", diff),
        ("diff p.hex -x", "\"-x\" is no option", diff),
    ];
    for (arguments, told, usage) in cases {
        folder.desk(&format!("preset {arguments}")).is_refused(2, &format!("{told}: {usage}"));
    }
}

#[test]
fn behind_two_hyphens_every_word_is_a_file() {
    let folder = whole_and_half().with("-s.desk", "ram 0: 1\n");
    folder.desk("preset write --out new.hex -- -s.desk").is_done("new.hex: 128 cells, 1 of them not 0\n");
    folder.write("--help", folder.read("new.hex"));
    folder.desk("preset diff -- new.hex --help").is_done("no cell differs\n");
    folder.desk("preset check -- --help").is_done("--help: good: 128 cells, 1 not 0\n1 preset: good 1, refused 0, unreadable 0\n");
    assert_eq!(folder.desk("preset show -- --help").status, 0);
}

/// A reader that closed its end changes no status.
#[test]
fn a_closed_pipe_is_no_fault() {
    let folder = whole_and_half();
    for (line, status) in [
        ("check p.hex", 0),
        ("show p.hex", 0),
        ("diff p.hex p.hex", 0),
        ("check half.hex", 1),
        ("write expects.desk --preset p.hex --out -", 0),
    ] {
        let ran = folder.shell(&format!("{{ desk preset {line}; echo $? >status; }} | true"));
        assert_eq!((folder.text("status").trim(), ran.status), (status.to_string().as_str(), 0), "{line}: {ran:?}");
    }
}
