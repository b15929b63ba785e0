//! What `speed instructions` makes of a counter: with stand-ins that tell what they are asked to, and no other number.

use std::process::{Command, Output};

fn speed(arguments: &[&str]) -> Output {
    Command::new(env!("CARGO_BIN_EXE_speed")).args(arguments).output().expect("speed is run")
}

/// `$0 $@` is the command whose instructions are asked for; `$4`, its last argument, is the number of calls.
fn counted_by(script: &str) -> Output {
    speed(&["instructions", "sh", "-c", script])
}

fn refused(output: &Output, why: &str) {
    let told = String::from_utf8_lossy(&output.stderr);
    assert!(output.status.code() == Some(1) && output.stdout.is_empty() && told.contains(why), "{:?}, not with '{why}'", output);
}

#[test]
fn a_call_is_two_calls_less_one() {
    let output = counted_by(r#""$0" "$@" && echo "==9== Collected : $((1000000 + 65535 * 7 * $4 + 6553))" >&2"#);
    assert_eq!(String::from_utf8_lossy(&output.stderr), "");
    let of = |chip: &str| format!("{chip} mixing loop 7.000\n{chip} biquad 7.000\n{chip} jumps 7.000\n");
    assert_eq!(String::from_utf8_lossy(&output.stdout), of("77P20") + &of("77C25"));
    assert!(output.status.success());
}

#[test]
fn what_was_not_counted_is_told() {
    let not_counted = "77P20, mixing loop: not counted by sh";
    refused(&counted_by("true"), not_counted);
    refused(&counted_by("echo 'Collected : many' >&2"), not_counted);
    refused(&counted_by("echo 'Collected : -5' >&2"), not_counted);
    refused(&counted_by("echo 'Collected : 5'"), not_counted);
    refused(&counted_by("echo 'Collected : 5' >&2; exit 3"), not_counted);
    refused(&counted_by("echo 'no such tool' >&2; exit 1"), "no such tool");
    refused(&counted_by("echo \"Collected : $((9 - $4))\" >&2"), "77P20, mixing loop: 8 instructions in one call and 7 in two");
    refused(&speed(&["instructions", "no-such-counter"]), "no-such-counter");
}

#[test]
fn a_count_is_of_a_chip_and_a_program_that_there_are() {
    assert!(speed(&["count", "77P20", "jumps", "1"]).status.success());
    assert!(speed(&["count", "77P20", "ADD M, move", "1"]).status.success());
    for program in ["mixing loop", "biquad", "jumps", "ADD M, move"] {
        assert!(speed(&["count", "77C25", program, "1"]).status.success(), "{program}");
    }
    refused(&speed(&["count", "7720", "jumps", "1"]), "there is no chip 7720");
    refused(&speed(&["count", "77P20", "jump", "1"]), "the 77P20 has no program jump");
    refused(&speed(&["count", "77P20", "jumps", "all"]), "all is no number of calls");
}
