//! What a record expects besides its words sent: `expect` and `reply` are judged, and a refused event needs its `reply`.

use super::Checked;
use crate::folder::Folder;

/// A record with an expectation at every place where one may stand. LDI @SOM,1234H; then words that do nothing.
const HOLDS: &str = "program 0: 624689H\nram 7FH: ABCDH\nexpect ram 7FH ABCDH\nrun 1\nreply 0 words 1\nexpect SO 1234H\nexpect SORQ 1\n\
                     out\nreply 0 value 1234H\nsent 1234H\nreply 0\nexpect SORQ 0\nexpect PC 1\nsamples 1\n";

/// Checks a record as a text and in the compact form: both are judged the same.
#[track_caller]
fn both_forms(record: &str) -> Checked {
    let folder = Folder::new();
    let text = folder.check_text(record);
    assert_eq!(folder.desk("convert x.record compact.record").status, 0);
    assert_eq!(folder.check("compact.record").verdict, text.verdict, "{record}");
    text
}

#[test]
fn expectations_that_hold_change_nothing() {
    both_forms(HOLDS).is("agrees", "1 sample, as the chip sends it");
}

#[test]
fn an_expectation_that_does_not_hold_is_a_difference() {
    let cases = [
        ("expect ram 7FH ABCDH", "expect ram 7FH ABCEH", "x.record:3:1: expected ram 7FH ABCEH, found ABCDH"),
        ("reply 0 words 1", "reply 0 words 2", "x.record:5:1: expected reply 0 with 2 words, found 0 (done) with 1 word"),
        ("expect SO 1234H", "expect SO 1235H", "x.record:6:1: expected SO 1235H, found 1234H"),
        ("reply 0 value 1234H", "reply 10", "x.record:9:1: expected reply 10, found 0 (done)"),
        ("expect SORQ 0", "expect SORQ 1", "x.record:12:1: expected SORQ 1, found 0"),
        ("expect PC 1", "expect PC 0", "x.record:13:1: expected PC 000H, found 001H"),
    ];
    for (held, wrong, told) in cases {
        assert!(HOLDS.contains(held));
        both_forms(&HOLDS.replace(held, wrong)).begins("differs", told);
    }
}

/// The first is told, and the words behind it are still held against the chip's.
#[test]
fn the_check_goes_on_behind_an_expectation_that_does_not_hold() {
    let record = HOLDS.replace("expect SO 1234H", "expect SO 0").replace("sent 1234H", "sent 1233H").replace("expect PC 1", "expect PC 7");
    let checked = both_forms(&record);
    checked.begins("differs", "x.record:6:1: expected SO 0000H, found 1234H; at sample 0 the desk sent 1233H, the chip sends 1234H");
    assert!(!checked.sentence.contains("expected PC"), "{checked:?}");
}

#[test]
fn a_refused_event_that_a_reply_expects_agrees() {
    for (refused, reply) in [("out", 10), ("write 256", 3), ("run 65536", 3), ("event 9 0", 3), ("set PC 512\nrun 1", 2)] {
        let before = format!("{refused}\nexpect SORQ 0\nreply {reply}\nset PC 0\n");
        both_forms(&HOLDS.replace("run 1\n", &format!("{before}run 1\n"))).is("agrees", "1 sample, as the chip sends it");
    }
}

#[test]
fn a_refused_event_that_no_reply_expects_is_a_difference() {
    for (refused, number) in [("out", 10), ("write 256", 3), ("run 65536", 3), ("event 9 0", 3), ("event 5 1", 3)] {
        let before = HOLDS.replace("run 1\n", &format!("{refused}\nrun 1\n"));
        let behind = HOLDS.replace("samples", &format!("{refused}\nsamples"));
        for (record, line) in [(before, 4), (behind, 14)] {
            let checked = both_forms(&record);
            checked.begins("differs", &format!("x.record:{line}:1: `{}` is refused", refused.replace("256", "100H")));
            checked.says("differs", &format!("refusal {number}, "));
            checked.says("differs", "; no `reply` expects it");
        }
    }
}

/// An interrupt's words done: 2 of one that is accepted, 0 of one that is ignored or refused.
#[test]
fn the_words_of_an_interrupt_are_judged() {
    for (before, number, words) in [("set SR 80H", 0, 2), ("set SR 0", 0, 0), ("set SR 80H\nset DEPTH 4", 9, 0)] {
        for said in 0..=2 {
            let interrupt = format!("{before}\ninterrupt\nreply {number} words {said}\nset PC 0\nset DEPTH 0\n");
            let checked = both_forms(&HOLDS.replace("run 1\n", &format!("{interrupt}run 1\n")));
            match said == words {
                true => checked.is("agrees", "1 sample, as the chip sends it"),
                false => checked.says("differs", &format!(" with {words} words")),
            }
        }
    }
}

#[test]
fn a_word_that_is_refused_in_a_run_is_told_before_the_difference() {
    let checked = both_forms("program 0: 800000H\nrun 3\nout\nsent 1\nsamples 1\n");
    let refused = "x.record:2:1: `run 3` is refused after 0 words: refusal 4, the word at PC is 2^23 or more \
                   (800000H has 24 bits: a program of the 77C25 stands behind `chip 77C25`); no `reply` expects it";
    let differs = "at sample 0 the desk sent 0001H, the chip sends nothing (refusal 10, serial out with SORQ 0) (x.record:4:1); ";
    checked.begins("differs", &format!("{refused}; {differs}"));
}

#[test]
fn a_reply_without_an_event_is_unreadable() {
    let checked = both_forms("reply 0\nsamples 0\n");
    checked.begins("unreadable", "x.record:1:1: `reply`: expected an event before it");
}

/// A refusal at the very end, in a record that is cut there.
#[test]
fn a_refused_event_at_the_end_of_a_cut_record_is_a_difference() {
    let record = HOLDS.replace("samples 1\n", "out\n");
    both_forms(&record).begins("differs", "x.record:14:1: `out` is refused: refusal 10, serial out with SORQ 0; no `reply` expects it");
}
