//! What is printed, and where to: lines, nothing, objects, a full disk.

use super::run_text;
use crate::folder::{ended, Folder, Ran};

#[test]
fn quiet_prints_nothing_but_failures() {
    let folder = Folder::new().with("good.desk", "run 1\nshow\nreply 0\n").with("wrong.desk", "run 1\nshow\nexpect PC 0\n");
    folder.desk("run --quiet good.desk").is_done("");
    folder.desk("run good.desk --quiet").is_done("");
    folder.desk("run --quiet wrong.desk").is_refused(1, "wrong.desk:3:1: expected PC 000H, found 001H");
}

#[test]
fn json_is_one_object_a_reply() {
    let text = "program 1: 000001H\nrun 3\nreply 6\nshow\nset SO 1000H\nset SORQ 1\nout\nevent 9 4\nreply 3\nset A 1\n";
    let folder = Folder::new().with("a \"b\" \\.desk", text);
    let object = |rest: &str| format!("{{\"file\":\"a \\\"b\\\" \\\\.desk\",{rest}}}\n");
    let run = r#""line":2,"event":"run","kind":0,"given":3,"number":6,"meaning":"SRC none where the bus is used","words":1,"value":0"#;
    let out = r#""line":7,"event":"out","kind":5,"given":0,"number":0,"meaning":"done","words":0,"value":4096"#;
    let meaning = "event kind over 7, or value not allowed";
    let other = format!(r#""line":8,"event":"event 9","kind":9,"given":4,"number":3,"meaning":"{meaning}","words":0,"value":0"#);
    let printed = [run, out, &other].map(object).concat();
    folder.desk_of(&["run", "--json", "a \"b\" \\.desk"]).is_done(&printed);
    folder.desk_of(&["run", "a \"b\" \\.desk", "--json"]).is_done(&printed);
}

#[test]
fn json_prints_the_replies_before_a_failure() {
    let ran = Folder::new().with("s.desk", "run 1\nreply 1\nrun 1\n").desk("run s.desk --json");
    let printed = r#"{"file":"s.desk","line":1,"event":"run","kind":0,"given":1,"number":0,"meaning":"done","words":1,"value":0}"#;
    let told = "desk: s.desk:2:1: expected reply 1, found 0 (done)\n";
    assert_eq!(ran, Ran::new(1, format!("{printed}\n"), told));
}

/// A compact record has no lines: its statements are counted.
#[test]
fn json_of_a_compact_record_counts_statements() {
    let folder = Folder::new().with("s.desk", "set A 1\nrun 1\nreply 0\n");
    assert_eq!(folder.desk("convert s.desk s.record").status, 0);
    let printed = r#"{"file":"s.record","statement":2,"event":"run","kind":0,"given":1,"number":0,"meaning":"done","words":1,"value":0}"#;
    folder.desk("run --json s.record").is_done(&format!("{printed}\n"));
}

#[test]
fn a_hyphen_is_standard_input() {
    let folder = Folder::new().with("part.desk", "run 2\n");
    let ran = folder.desk_with_input("run -", b"run 1\ninclude part.desk\nexpect PC 4\n");
    let printed = "run 1: 0 done, 1 word\nrun 2: 0 done, 2 words\n";
    assert_eq!(ran, Ran::new(1, printed, "desk: standard input:3:1: expected PC 004H, found 003H\n"));
    let ran = folder.desk_with_input("run --quiet -", b"run 1\nruns 2\n");
    ran.is_refused(2, "standard input:2:1: \"runs\": expected a statement, perhaps \"run\"");
    folder.desk_with_input("run -", b"").is_done("");
}

/// As a shell gives what another command prints, `<(..)`: it can be read once, and is played and judged all the same.
#[test]
fn a_script_that_comes_through_a_pipe_by_another_name_is_played() {
    let folder = Folder::new();
    for command in ["run", "run --quiet", "trace"] {
        let ran = folder.shell(&format!("printf 'run 1\\nexpect PC 5\\n' | desk {command} /dev/stdin"));
        assert_eq!((ran.status, ran.told.as_str()), (1, "desk: /dev/stdin:2:1: expected PC 005H, found 001H\n"), "{command}");
    }
    folder.shell("printf 'run 1\\n' | desk run /dev/stdin").is_done("run 1: 0 done, 1 word\n");
}

#[test]
fn a_compact_record_is_played_from_standard_input() {
    let folder = Folder::new().with("s.desk", "run 1\nexpect PC 5\n");
    let ran = folder.shell("desk convert s.desk - | desk run -");
    assert_eq!(ran, Ran::new(1, "run 1: 0 done, 1 word\n", "desk: standard input: statement 2: expected PC 005H, found 001H\n"));
    assert_eq!(folder.shell("desk convert s.desk - | desk trace --count 0 -"), Ran { printed: String::new(), ..ran });
}

#[test]
fn bad_use_says_what_was_expected() {
    let folder = Folder::new().with("s.desk", "run 1\n");
    let cases = [
        ("run", "no script"),
        ("run --quiet", "no script"),
        ("run --loud s.desk", "\"--loud\" is no option"),
        ("run s.desk -q", "\"-q\" is no option"),
        ("run s.desk s.desk", "\"s.desk\" is a second script"),
        ("run s.desk -", "\"-\" is a second script"),
        ("run --quiet --json s.desk", "--quiet and --json together"),
        ("run --json s.desk --quiet", "--quiet and --json together"),
    ];
    for (line, told) in cases {
        let usage = "expected `desk run [--quiet | --json] [--program FILE] [--data FILE] [--preset FILE] SCRIPT`, \
                     where a script of - is standard input";
        folder.desk(line).is_refused(2, &format!("{told}: {usage}"));
    }
}

#[test]
fn a_script_that_cannot_be_read_is_named() {
    let folder = Folder::new().with("inside/s.desk", "");
    for name in ["none.desk", "inside", ""] {
        let ran = folder.desk_of(&["run", name]);
        assert_eq!((ran.status, ran.printed.as_str()), (2, ""));
        assert!(ran.told.starts_with(&format!("desk: {name}: cannot read: ")), "{ran:?}");
    }
}

#[test]
fn show_marks_what_moved_since_the_last_one() {
    let text = "program 0: 00103FH 00302FH     # MOV @MEM,TR DPINC; MOV @MEM,B DPCLR\n\
                set TR 1234H\nram 05H: 0 9\nset DP 0FH\nshow\nrun 1\nshow\nshow\nrun 1\nshow\n";
    let ran = run_text(text);
    assert_eq!(ran.status, 0);
    let shows: Vec<&str> = ran.printed.split("PC ").skip(1).collect();
    let marked = |show: &str| -> Vec<String> {
        let words = show.split([' ', '\n', '[', ']']).filter(|word| word.ends_with('*'));
        words.map(str::to_string).collect()
    };
    assert_eq!(marked(shows[0]), ["1234H*", "0FH*", "0009*"]);
    assert!(shows[0].contains("0000 ]\n10H"), "{}", shows[0]);
    assert_eq!(marked(shows[1]), ["001H*", "00H*", "1234*"]);
    assert!(shows[1].contains("00H[0000 ]0000  0000  0000  0000  0000  0009  "), "{}", shows[1]);
    assert_eq!(marked(shows[2]), [""; 0]);
    assert_eq!(marked(shows[3]), ["002H*"]);
}

#[cfg(target_os = "linux")]
#[test]
fn a_full_disk_is_told() {
    let full = std::fs::OpenOptions::new().write(true).open("/dev/full").expect("a full device");
    let folder = Folder::new().with("s.desk", "run 1\n");
    let ran = ended(folder.command(&["run", "s.desk"]).stdout(full).spawn().expect("desk runs"));
    assert_eq!(ran.status, 2, "{ran:?}");
    assert!(ran.told.starts_with("desk: standard output: cannot write: ") && ran.told.lines().count() == 1, "{ran:?}");
}
