//! The help and the man page tell the truth: every example in them runs.

use crate::folder::{desk_in, repository, Folder};
use desk::commands::help::TEXTS;
use std::path::Path;

/// The command lines that begin with `$ desk`.
fn examples(text: &str) -> Vec<String> {
    let lines = text.lines().filter_map(|line| line.trim().strip_prefix("$ desk "));
    lines.map(|line| line.replace("\\-", "-")).collect()
}

#[track_caller]
fn succeeds(folder: &Path, line: &str) {
    let ran = desk_in(folder, line);
    let expected = match line.split(' ').next() {
        Some("preset") if line.starts_with("preset diff ") => (1, "desk: the presets differ\n"),
        Some("check-image") => (1, "desk: the image is not good\n"),
        _ => (0, ""),
    };
    assert_eq!((ran.status, ran.told.as_str()), expected, "desk {line}");
    assert!(!ran.printed.is_empty(), "desk {line} prints nothing");
}

#[test]
fn every_text_is_printed_and_its_example_runs() {
    let sound = Folder::new();
    succeeds(&sound.0, "example .");
    for (command, text) in TEXTS {
        sound.desk(format!("help {command}").trim_end()).is_done(text);
        let examples = examples(text);
        // One, or one for each of its own commands.
        assert_eq!(examples.len(), if command == "preset" { 4 } else { 1 }, "desk help {command} has its examples");
        let folder = if matches!(command, "mix" | "example" | "convert") { sound.0.clone() } else { repository() };
        examples.iter().for_each(|example| succeeds(&folder, example));
    }
}

#[test]
fn every_command_tells_its_help_when_asked() {
    let folder = Folder::new();
    for (command, text) in TEXTS.into_iter().filter(|(command, _)| !command.is_empty()) {
        for line in ["--help", "some thing --other -h"] {
            folder.desk(&format!("{command} {line}")).is_done(text);
        }
    }
    for word in ["help", "--help", "-h"] {
        folder.desk(word).is_done(TEXTS[0].1);
    }
    assert_eq!(folder.names(), [""; 0]);
}

#[test]
fn the_lines_of_the_help_fit_a_terminal() {
    for (command, text) in TEXTS {
        let longest = text.lines().map(|line| line.chars().count()).max();
        assert!(longest <= Some(120), "desk help {command} has a line of {longest:?} characters");
    }
}

#[test]
fn the_man_page_names_every_command_and_its_example_runs() {
    let page = std::fs::read_to_string(repository().join("docs/desk.1")).expect("the man page");
    for (command, _) in TEXTS {
        let name = format!("desk {}", command.replace('-', "\\-"));
        assert!(page.contains(name.trim_end()), "{command} is not in the man page");
    }
    let examples = examples(&page);
    assert_eq!(examples.len(), 1);
    succeeds(&repository(), &examples[0]);
}

#[test]
fn bad_use_is_told_with_status_2() {
    let folder = Folder::new();
    for (line, told) in [
        ("", "no command: see `desk help`"),
        ("dance", "\"dance\" is no command: see `desk help`"),
        ("rum", "\"rum\" is no command, perhaps \"run\": see `desk help`"),
        ("check_track", "\"check_track\" is no command, perhaps \"check-track\": see `desk help`"),
        ("Mix", "\"Mix\" is no command, perhaps \"mix\": see `desk help`"),
        ("--quiet", "\"--quiet\" is no command: see `desk help`"),
        ("dance --help", "\"dance\" is no command: see `desk help`"),
        ("help dance", "\"dance\" is no command: see `desk help`"),
        ("help converts", "\"converts\" is no command, perhaps \"convert\": see `desk help`"),
        ("help run mix", "help takes one command: see `desk help`"),
    ] {
        folder.desk(line).is_refused(2, told);
    }
}
