//! Expectations: the first that does not hold ends the run, with what was expected and what was found.

use super::{stops, succeeds};

#[test]
fn the_first_expectation_that_does_not_hold_ends_the_run() {
    let cases = [
        ("expect A 1235H", "expected A 1235H, found 1234H"),
        ("expect a 0", "expected A 0000H, found 1234H"),
        ("expect PC 1", "expected PC 001H, found 002H"),
        ("expect DP 1", "expected DP 01H, found 00H"),
        ("expect ZA 1", "expected ZA 1, found 0"),
        ("expect ram 0FH 1", "expected ram 0FH 0001H, found ABCDH"),
        ("reply 1", "expected reply 1, found 6 (SRC none where the bus is used)"),
        ("reply 4000000000", "expected reply 4000000000, found 6 (SRC none where the bus is used)"),
        ("reply 0 words 3", "expected reply 0 with 3 words, found 6 (SRC none where the bus is used) with 2 words"),
        ("reply 6 words 1", "expected reply 6 with 1 word, found 6 (SRC none where the bus is used) with 2 words"),
        ("reply 6 value 1", "expected reply 6 with value 0001H, found 6 (SRC none where the bus is used) with value 0000H"),
        (
            "reply 6 value 0 words 5",
            "expected reply 6 with 5 words and value 0000H, found 6 (SRC none where the bus is used) with 2 words and value 0000H",
        ),
    ];
    for (line, told) in cases {
        let text = format!("program 0: 624681H 000000H 000001H\nram 0FH: ABCDH\nrun 5\nreply 6\n  {line}\nrun 1\nexpect A 9\n");
        stops(&text, 1, "run 5: 6 SRC none where the bus is used, 2 words\n", &format!("s.desk:5:3: {told}"));
    }
}

#[test]
fn a_wrong_value_of_the_host_or_the_line_is_told() {
    let start = "set DR 34H\nset SO 1000H\nset SORQ 1\n";
    let told = "s.desk:5:1: expected reply 0 with value 35H, found 0 (done) with value 34H";
    stops(&format!("{start}read\nreply 0 value 35H\n"), 1, "read: 0 done, value 34H\n", told);
    let told = "s.desk:5:1: expected reply 0 with value 1001H, found 0 (done) with value 1000H";
    stops(&format!("{start}out\nsent 1001H\n"), 1, "out: 0 done, value 1000H\n", told);
}

#[test]
fn a_reply_without_its_event_is_a_bad_script() {
    stops("set A 1\n reply 0\n", 2, "", "s.desk:2:2: `reply`: expected an event before it");
    stops("sent 0\n", 2, "", "s.desk:1:1: `sent`: expected an `out` before it");
    stops("read\nsent 0\n", 2, "read: 0 done, value 00H\n", "s.desk:2:1: `sent` after `read`: expected an `out` before it");
}

#[test]
fn the_number_of_samples_is_held_against_the_words_that_were_sent() {
    let two = "set SO 7\nset SORQ 1\nout\nsent 7\nset SORQ 1\nout\nsent 7\n";
    let printed = "out: 0 done, value 0007H\nout: 0 done, value 0007H\n";
    succeeds(&format!("{two}samples 2\n"), printed);
    stops(&format!("{two}samples 3\n"), 1, printed, "s.desk:8:1: 3 samples are said: found 2 `sent` before");
    stops("samples 1\n", 1, "", "s.desk:1:1: 1 samples are said: found 0 `sent` before");
}
