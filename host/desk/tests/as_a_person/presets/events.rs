//! `--events N`: the RAM behind the first N events, and in front of the next.

use super::preset;
use crate::folder::Folder;

/// Four events: two that store a cell, one that is refused and expected, and one that stores another; cells are given between them.
const SCRIPT: &str = "program 0: 00103FH 00103FH 00103FH\nset TR 5\nram 10H: 1\nrun 1\nexpect ram 0 5\nset TR 6\nram 11H: 2\nrun 1\n\
                      out\nreply 10\nram 12H: 3\nrun 1\nram 13H: 4\n";

#[track_caller]
fn leaves(options: &str, script: &str, used: &[(usize, u16)]) {
    let mut cells = [0; 128];
    used.iter().for_each(|(at, value)| cells[*at] = *value);
    let folder = Folder::new().with("s.desk", script);
    folder.desk(&format!("preset write s.desk --out - {options}")).is_done(&preset(&cells));
    folder.desk_with_input(&format!("preset write - --out - {options}"), script.as_bytes()).is_done(&preset(&cells));
}

#[test]
fn as_many_events_are_played_as_are_asked_for() {
    leaves("--events 0", SCRIPT, &[(0x10, 1)]);
    leaves("--events 1", SCRIPT, &[(0, 5), (0x10, 1), (0x11, 2)]);
    leaves("--events 2", SCRIPT, &[(0, 5), (1, 6), (0x10, 1), (0x11, 2)]);
    leaves("--events 3", SCRIPT, &[(0, 5), (1, 6), (0x10, 1), (0x11, 2), (0x12, 3)]);
    let all = [(0, 5), (1, 6), (2, 6), (0x10, 1), (0x11, 2), (0x12, 3), (0x13, 4)];
    leaves("--events 4", SCRIPT, &all);
    leaves("--events 04H", SCRIPT, &all);
    leaves("", SCRIPT, &all);
}

#[test]
fn more_events_than_there_are_are_refused_with_how_many_there_are() {
    let folder = Folder::new().with("s.desk", SCRIPT).with("one.desk", "run 1\n").with("none.desk", "ram 0: 1\n");
    for (script, events, has) in [("s.desk", 5, "4 events"), ("one.desk", 2, "1 event"), ("none.desk", 1, "0 events")] {
        let told = format!("--events {events}: {script} has {has}: expected no more than that");
        folder.desk(&format!("preset write {script} --out new.hex --events {events}")).is_refused(2, &told);
    }
    let most = "--events 18446744073709551615: standard input has 1 event: expected no more than that";
    folder.desk_with_input("preset write - --out - --events 18446744073709551615", b"run 1\n").is_refused(2, most);
    assert!(!folder.names().contains(&"new.hex".to_string()));
}

/// What stands behind the last event that is played, and before the next, is judged; what is behind that is not.
#[test]
fn only_what_is_played_is_judged() {
    let script = "ram 0: 1\nrun 1\nexpect ram 0 1\nrun 1\nexpect ram 0 2\n";
    leaves("--events 1", script, &[(0, 1)]);
    let folder = Folder::new().with("s.desk", script);
    for options in ["", "--events 2"] {
        let ran = folder.desk(&format!("preset write s.desk --out new.hex {options}"));
        ran.is_refused(1, "s.desk:5:1: expected ram 00H 0002H, found 0001H");
    }
    assert_eq!(folder.names(), ["s.desk"]);
}

#[test]
fn a_refused_event_is_a_failure_where_no_reply_before_the_next_expects_it() {
    let folder = Folder::new().with("s.desk", "run 1\nout\nrun 1\nreply 0\n");
    leaves("--events 1", "run 1\nout\nrun 1\n", &[]);
    let told = "s.desk:2:1: `out` is refused: refusal 10, serial out with SORQ 0; no `reply` expects it";
    for options in ["", "--events 2", "--events 3"] {
        folder.desk(&format!("preset write s.desk --out new.hex {options}")).is_refused(1, told);
    }
    assert_eq!(folder.names(), ["s.desk"]);
}
