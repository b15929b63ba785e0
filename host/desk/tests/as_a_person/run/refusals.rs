//! Events that are refused: each says why, and one that no `reply` expects is a failure.

use super::{stops, succeeds};
use crate::folder::{Folder, Ran};

const WIDE: &str = "2 a register is too wide, the depth over 4, or SR bits 6 to 2 not 0";
const NOT_ALLOWED: &str = "3 event kind over 7, or value not allowed";

/// Scripts that end with an event that is refused, the number of its refusal, and what is printed of it.
fn refused() -> Vec<(&'static str, u32, String)> {
    vec![
        ("set DP 128\nrun 0", 2, format!("run 0: {WIDE}, 0 words")),
        ("set SR 4\nread", 2, format!("read: {WIDE}, value 00H")),
        ("run 65536", 3, format!("run 65536: {NOT_ALLOWED}, 0 words")),
        ("write 256", 3, format!("write 100H: {NOT_ALLOWED}")),
        ("in 10000H", 3, format!("in 10000H: {NOT_ALLOWED}")),
        ("event 7 1", 3, format!("event 7 1: {NOT_ALLOWED}")),
        ("event 8 0", 3, format!("event 8 0: {NOT_ALLOWED}")),
        ("event 4294967295 4294967295", 3, format!("event 4294967295 4294967295: {NOT_ALLOWED}")),
        ("program 1: 800000H\nrun 2", 4, "run 2: 4 the word at PC is 2^23 or more, 1 word".to_string()),
        ("program 0: 400000H\nrun 1", 5, "run 1: 5 BRCH is none of 010, 100, 101, 0 words".to_string()),
        ("program 2: 000001H\nrun 5", 6, "run 5: 6 SRC none where the bus is used, 2 words".to_string()),
        ("rom 0: 2000H\nprogram 0: 000061H\nrun 1", 7, "run 1: 7 the data ROM cell at RP is 8192 or more, 0 words".to_string()),
        ("program 0: 200000H\nrun 1", 8, "run 1: 8 RT at depth 0, 0 words".to_string()),
        ("set DEPTH 4\nset SR 80H\ninterrupt", 9, "interrupt: 9 call, or interrupt taken, at depth 4, 0 words".to_string()),
        ("out", 10, "out: 10 serial out with SORQ 0, value 0000H".to_string()),
    ]
}

#[test]
fn a_refused_event_that_a_reply_expects_prints_why() {
    for (text, number, printed) in refused() {
        succeeds(&format!("{text}\nreply {number}\n"), &format!("{printed}\n"));
    }
}

/// The place is that of the event; nothing of the script is played behind it.
#[test]
fn a_refused_event_that_no_reply_expects_is_a_failure() {
    let behind =
        ["", "\nset A 1", "\nrun 1", "\nshow", "\nexpect SIACK 0", "\nexpect ram 0 0\nreset", "\nrate 1", "\nsamples 0", "\nram 0: 1"];
    for ((text, number, printed), behind) in refused().into_iter().zip(behind.into_iter().cycle()) {
        let ran = super::run_text(&format!("{text}{behind}"));
        assert_eq!(ran.status, 1, "{text}{behind}");
        assert!(ran.printed.starts_with(&format!("{printed}\n")), "{}", ran.printed);
        assert!(ran.told.starts_with(&format!("desk: s.desk:{}:1: `", text.lines().count())), "{}", ran.told);
        assert!(ran.told.contains(&format!(": refusal {number}, ")), "{}", ran.told);
        assert!(ran.told.ends_with("; no `reply` expects it\n"), "{}", ran.told);
    }
}

#[test]
fn only_expectations_and_show_stand_between_a_refused_event_and_its_reply() {
    let folder = Folder::new();
    let status = |between: &str| {
        folder.write("s.desk", format!("out\n{between}\nreply 10\n"));
        folder.desk("run --quiet s.desk").status
    };
    assert_eq!(["", "show", "expect PC 0", "expect ram 0 0\nshow\nexpect A 0"].map(status), [0; 4]);
    assert_eq!(["set A 1", "ram 0: 1", "rate 1", "run 0"].map(status), [1; 4]);
}

#[test]
fn a_refused_run_says_how_many_words_were_done() {
    let told = "s.desk:2:2: `run 5` is refused after 2 words: refusal 6, SRC none where the bus is used; no `reply` expects it";
    stops("program 2: 000001H\n run 5\n", 1, "run 5: 6 SRC none where the bus is used, 2 words\n", told);
}

/// What a record's `sent` says was sent, the chip does not send.
#[test]
fn a_sent_behind_a_refused_out_does_not_hold() {
    let told = "s.desk:2:1: expected reply 0 with value 0000H, found 10 (serial out with SORQ 0) with value 0000H";
    stops("out\nsent 0\n", 1, "out: 10 serial out with SORQ 0, value 0000H\n", told);
}

#[test]
fn every_form_of_printing_judges_the_same() {
    let folder = Folder::new().with("s.desk", "out\nrun 1\n");
    let told = "desk: s.desk:1:1: `out` is refused: refusal 10, serial out with SORQ 0; no `reply` expects it\n";
    assert_eq!(folder.desk("run --quiet s.desk"), Ran::new(1, "", told));
    assert_eq!(folder.desk("run s.desk"), Ran::new(1, "out: 10 serial out with SORQ 0, value 0000H\n", told));
    let json = folder.desk("run --json s.desk");
    assert_eq!((json.status, json.printed.lines().count(), json.told.as_str()), (1, 1, told));
    let traced = folder.desk("trace s.desk");
    assert_eq!((traced.status, traced.printed.lines().count(), traced.told.as_str()), (1, 1, told));
}

#[test]
fn a_refused_event_leaves_the_machine_as_it_was() {
    let text = "set DP 128\nset A 5\nreset\nexpect DP 80H\nexpect A 5\nreply 2\nset DP 0\nset SIACK 1\nreset\nreply 0\nexpect SIACK 0\n";
    succeeds(text, &format!("reset: {WIDE}\nreset: 0 done\n"));
}
