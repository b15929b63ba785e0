//! `desk convert` as a person uses it: no statement is lost, and no file that is read.

use crate::folder::Folder;
use std::os::unix::fs::symlink;

/// Every kind of statement, and names, numbers and places that are written in more than one way.
const EVERY: &str = "# every statement\n\
    RATE 48000\nsources booth \"the floor # 1\" \"\" \u{e9}\n\
    chip 77p20\ninclude part.desk\n\
    rom 1F0H: 1FFFH 12 0\nram 7FH: ABCDH\npatch ram 7EH: 1 2\n\
    set TR 7FFFH\nset CA 1\nset DEPTH 0\n\
    run 3\nreply 0 words 3\nrun 0\nrun 65536\nreply 3 words 0 value 0\n\
    in 2000H\nin 65536\nreply 3\nwrite 34H\nwrite 256\nreply 3\nread\nstatus\nreply 0 value 0\n\
    interrupt\nreset\nevent 4 12\nevent 4294967295 4294967295\nreply 3\nevent 5 1\nreply 3\n\
    set SORQ 1\nout\nsent 0\nset SO 0FFFFH\nset SORQ 1\nout\nsent 65535\n\
    expect A 9233H\nexpect ram 7FH 2\nshow\n\
    samples 2\n";

/// A folder with a record of every statement.
fn every() -> Folder {
    Folder::new().with("every.txt", EVERY).with("part.desk", "program 0: 624681H 0A8030H 501000H\n")
}

impl Folder {
    #[track_caller]
    fn convert(&self, from: &str, to: &str) {
        self.desk_of(&["convert", from, to]).is_done("");
    }

    /// A conversion that is refused and leaves the folder as it was.
    #[track_caller]
    fn keeps(&self, from: &str, to: &str, told: &str) {
        let before: Vec<(String, Option<Vec<u8>>)> = self.all();
        let ran = self.desk_of(&["convert", from, to]);
        assert!(ran.status == 2 && ran.printed.is_empty() && ran.told.starts_with(&format!("desk: {told}")), "{ran:?}");
        assert!(self.all() == before, "the folder is as it was");
    }

    fn all(&self) -> Vec<(String, Option<Vec<u8>>)> {
        self.names().into_iter().map(|name| (name.clone(), std::fs::read(self.0.join(name)).ok())).collect()
    }
}

#[test]
fn there_and_back_and_there_again_is_the_same() {
    let folder = every();
    folder.convert("every.txt", "one.record");
    folder.convert("one.record", "two.txt");
    folder.convert("two.txt", "three.record");
    folder.convert("three.record", "four.txt");
    assert!(folder.read("one.record") == folder.read("three.record"));
    assert_eq!(folder.text("two.txt"), folder.text("four.txt"));
    let (played, expected) = (folder.desk("run every.txt"), folder.desk("run two.txt"));
    assert_eq!((played.status, &played.printed), (0, &expected.printed), "{played:?}");
    assert_eq!(folder.desk("run three.record"), played);
}

/// The text says each statement once, on a line of its own, with what was included and without comments.
#[test]
fn the_text_has_every_statement_and_nothing_else() {
    let folder = every();
    folder.convert("every.txt", "one.record");
    let text = folder.desk("convert one.record -").printed;
    let lines: Vec<&str> = text.lines().collect();
    assert_eq!(lines.len(), EVERY.lines().count() - 1, "all but the comment");
    let first = ["rate 48000", "sources booth \"the floor # 1\" \"\" \u{e9}", "chip 77P20", "program 000H: 624681H 0A8030H 501000H"];
    assert_eq!(lines[..4], first);
    assert_eq!(lines.last(), Some(&"samples 2"));
    assert!(lines.iter().all(|line| !line.starts_with("include") && !line.starts_with('#')), "{text}");
}

#[test]
fn both_ends_may_be_pipes() {
    let folder = every();
    folder.convert("every.txt", "one.record");
    let ran = folder.shell("desk convert every.txt - | desk convert - - | desk convert - two.record");
    ran.is_done("");
    assert!(folder.read("one.record") == folder.read("two.record"));
}

#[test]
fn a_record_does_not_replace_itself_by_whatever_name() {
    let folder = every();
    folder.convert("every.txt", "one.record");
    for name in ["every.txt", "one.record"] {
        for (link, made) in [("hard", std::fs::hard_link as fn(_, _) -> _), ("link", |from, to| symlink(from, to))] {
            made(folder.0.join(name), folder.0.join(link)).expect("a link");
            folder.keeps(name, link, &format!("{link}: would replace {name}, which is read: expected another file"));
            folder.keeps(link, name, &format!("{name}: would replace {link}, which is read: expected another file"));
            std::fs::remove_file(folder.0.join(link)).expect("the link");
        }
        folder.keeps(name, name, &format!("{name}: would replace {name}, which is read: expected another file"));
        folder.keeps(name, &format!("./{name}"), &format!("./{name}: would replace {name}, which is read: expected another file"));
    }
    folder.keeps("every.txt", "part.desk", "part.desk: would replace part.desk, which is read: expected another file");
}

#[test]
fn what_cannot_be_converted_leaves_nothing() {
    let folder = every().with("bad.txt", "run 1\ndance\n").with("twice.txt", "ram 0: 1\nram 0: 1\n").with("old", "the old record");
    folder.convert("every.txt", "one.record");
    let record = folder.read("one.record");
    folder.write("cut.record", &record[..record.len() - 1]);
    folder.write("empty.record", &record[..12]);
    folder.write("altered.record", record.iter().enumerate().map(|(at, byte)| byte ^ u8::from(at == 100)).collect::<Vec<u8>>());
    for to in ["new", "old"] {
        folder.keeps("bad.txt", to, "bad.txt:2:1: \"dance\": expected a statement: ");
        folder.keeps("twice.txt", to, "twice.txt:2:1: ram 000H was given before, at twice.txt:1:1: ");
        folder.keeps("cut.record", to, "cut.record: at byte ");
        folder.keeps("empty.record", to, "empty.record: at byte 12: the record ends without an end block: ");
        folder.keeps("altered.record", to, "altered.record: at byte 12: ");
        folder.keeps("none", to, "none: cannot read: ");
    }
    folder.keeps("every.txt", "none/new", "none/new: cannot write: ");
}

#[test]
fn bad_use_says_what_was_expected() {
    let folder = every();
    let usage = "expected `desk convert RECORD OTHER`, where - is standard input or output";
    for line in ["convert", "convert every.txt", "convert every.txt a b"] {
        folder.desk(line).is_refused(2, &format!("a record and a file to write: {usage}"));
    }
    folder.desk("convert --fast every.txt a").is_refused(2, &format!("\"--fast\" is no option: {usage}"));
}

/// A script is a record as well: what it includes stands in it afterwards.
#[test]
fn the_bench_cases_are_converted_and_still_hold() {
    for case in [2, 4, 9, 10] {
        let folder = Folder::new();
        folder.copy_example(&format!("bench/case-{case:02}.desk"));
        let script = format!("case-{case:02}.desk");
        folder.convert(&script, "compact");
        assert_eq!(folder.desk("run compact"), folder.desk(&format!("run {script}")));
    }
}

/// Silence for a minute: it is the words that cost, and a text of it is many times as long.
#[test]
fn a_compact_record_is_small() {
    let folder = Folder::new().with("through.desk", "program 0: 4B4000H 0000B9H 500000H\n");
    folder.write_sound("a.wav", 8000, &(0..20_000).map(|at| (at * 31) as i16).collect::<Vec<i16>>());
    assert_eq!(folder.desk("mix through.desk --in a.wav --out b.wav --record b.record").status, 0);
    folder.convert("b.record", "b.txt");
    let (compact, text) = (folder.read("b.record").len(), folder.read("b.txt").len());
    assert!(compact < 4 * 20_000 + 5000 && text > 7 * compact, "{compact} and {text} bytes");
}
