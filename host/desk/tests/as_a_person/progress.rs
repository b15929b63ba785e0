//! Progress of long work on a terminal: one line that is rewritten, and wiped at the end.

use crate::folder::Folder;
use std::process::{Command, Stdio};

const LINE: &str = "\r\x1b[K";

/// What a terminal sees of the check of a record that runs word 0 so many times 65535, and then sends one sample.
fn seen(runs: usize) -> String {
    let folder = Folder::new();
    folder.write("long.record", format!("set SO 1234H\nset SORQ 1\n{}out\nsent 1234H\nsamples 1\n", "run 65535\n".repeat(runs)));
    // `script` gives the program a terminal and hands on what it writes there.
    let output = Command::new("script")
        .args(["--quiet", "--return", "--command"])
        .arg(format!("'{}' check-track long.record", env!("CARGO_BIN_EXE_desk")))
        .arg("/dev/null")
        .current_dir(&folder.0)
        .stdin(Stdio::null())
        .output()
        .expect("script starts");
    assert_eq!(output.status.code(), Some(0));
    String::from_utf8(output.stdout).expect("text")
}

/// The shares that were shown, each in place of the one before it, and nothing of them left at the end.
fn shares(text: &str) -> Vec<u32> {
    let verdict = "long.record: agrees: 1 sample, as the chip sends it\r\n1 track: agrees 1, differs 0, incomplete 0, unreadable 0\r\n";
    let shown = text.strip_suffix(verdict).unwrap_or_else(|| panic!("the verdict is not the end: {text:?}"));
    let Some(shown) = shown.strip_suffix(LINE) else {
        assert_eq!(shown, "");
        return Vec::new();
    };
    let share = |part: &str| part.strip_prefix("long.record: ")?.strip_suffix(" %")?.parse().ok();
    let parts = shown.split(LINE).skip(1);
    parts.map(|part| share(part).unwrap_or_else(|| panic!("no share of the work: {text:?}"))).collect()
}

/// The work is made longer until it takes long enough for a share to be shown, on whatever machine.
#[test]
fn a_terminal_sees_the_share_that_is_done() {
    let shares = [200, 1000, 5000, 25000].into_iter().map(|runs| shares(&seen(runs))).find(|shares| !shares.is_empty());
    let shares = shares.expect("a share is shown");
    assert!(shares.is_sorted() && shares.iter().all(|share| *share <= 100), "{shares:?}");
}
