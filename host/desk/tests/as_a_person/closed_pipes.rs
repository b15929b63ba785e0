//! A reader that leaves, or an output that is closed from the start, changes no verdict.

use crate::folder::{ended, Folder, Ran};
use std::io::{BufRead, BufReader};

/// Printed or traced it is more than a pipe holds; then it fails or not.
fn long(last: &str) -> String {
    format!("{}run 3000\n{last}", "run 1\nshow\n".repeat(100))
}

/// A folder with scripts and records that pass, fail and are bad.
fn folder() -> Folder {
    let scripts = Folder::new().with("good.desk", long("expect PC 01CH\n")).with("failing.desk", long("expect PC 1\n"));
    let scripts = scripts.with("refused.desk", long("out\n")).with("bad.desk", long("sent 1\n"));
    let records = scripts.with("good.record", "set SORQ 1\nout\nsent 0\nsamples 1\n").with("wrong.record", "out\nsent 6\nsamples 1\n");
    records.with("unreadable.record", "dance\n")
}

const SCRIPTS: [(&str, i32); 4] = [("good.desk", 0), ("failing.desk", 1), ("refused.desk", 1), ("bad.desk", 2)];

/// Calls with their status; most of them print more than a buffer holds.
fn calls() -> Vec<(String, i32)> {
    let many = |name: &str| format!("check-track {}", format!("{name} ").repeat(150));
    let run = SCRIPTS.map(|(script, status)| (format!("run {script}"), status));
    let trace = SCRIPTS.map(|(script, status)| (format!("trace {script}"), status));
    let tracks = [(many("good.record"), 0), (many("wrong.record"), 1), (many("unreadable.record"), 2)];
    let short = [("run --quiet failing.desk".to_string(), 1), ("check-track wrong.record".to_string(), 1)];
    run.into_iter().chain(trace).chain(tracks).chain(short).collect()
}

/// The status is that of a call that is read to its end, and what is wrong is told in one line.
#[track_caller]
fn same_verdict(line: &str, status: i32, ran: Ran) {
    assert_eq!((ran.status, ran.told.lines().count()), (status, usize::from(status != 0)), "{line}: {}", ran.told);
}

#[test]
fn calls_that_are_read_to_their_end_have_these_verdicts() {
    let folder = folder();
    for (line, status) in calls() {
        same_verdict(&line, status, folder.desk(&line));
    }
}

#[test]
fn a_reader_that_leaves_at_once_changes_no_verdict() {
    let folder = folder();
    for (line, status) in calls() {
        let words: Vec<&str> = line.split_whitespace().collect();
        let mut child = folder.command(&words).spawn().expect("desk runs");
        drop(child.stdout.take());
        same_verdict(&line, status, ended(child));
    }
}

#[test]
fn a_reader_that_leaves_after_a_line_changes_no_verdict() {
    let folder = folder();
    for (line, status) in calls().into_iter().filter(|(line, _)| !line.contains("--quiet")) {
        let words: Vec<&str> = line.split_whitespace().collect();
        let mut child = folder.command(&words).spawn().expect("desk runs");
        let mut first = String::new();
        BufReader::new(child.stdout.take().expect("a pipe")).read_line(&mut first).expect("a line");
        assert!(first.ends_with('\n'), "{line}: {first}");
        same_verdict(&line, status, ended(child));
    }
}

#[test]
fn an_output_that_is_closed_from_the_start_changes_no_verdict() {
    let folder = folder();
    for (line, status) in calls() {
        let ran = folder.shell(&format!("desk {line} >&-"));
        assert_eq!(ran.printed, "");
        same_verdict(&line, status, ran);
    }
}

#[test]
fn a_standard_error_that_is_closed_changes_no_verdict() {
    let folder = folder();
    for (line, status) in calls() {
        let ran = folder.shell(&format!("desk {line} >printed 2>&-"));
        assert_eq!((ran.status, ran.told.as_str()), (status, ""), "{line}");
        assert_eq!(folder.text("printed").is_empty(), line.contains("--quiet"), "{line}");
    }
}

/// The status of a pipe is that of its last part; the shell keeps the first one's here.
#[test]
fn the_first_line_of_a_failing_script_does_not_hide_that_it_fails() {
    let folder = folder();
    for (script, status) in SCRIPTS {
        let ran = folder.shell(&format!("{{ desk run {script} 2>told; echo $? >status; }} | head -1"));
        assert_eq!((ran.status, ran.printed.as_str()), (0, "run 1: 0 done, 1 word\n"));
        assert_eq!(folder.text("status"), format!("{status}\n"), "{script}: {}", folder.text("told"));
    }
}

#[test]
fn help_and_version_are_quiet_to_a_reader_that_leaves() {
    let folder = Folder::new();
    for word in ["help", "--version"] {
        let mut child = folder.command(&[word]).spawn().expect("desk runs");
        drop(child.stdout.take());
        assert_eq!(ended(child), Ran::new(0, "", ""));
    }
}
