//! A script of the 77C25 is run, shown and traced by that chip's words, registers and sizes, and bad lines speak of them.

use super::{is_bad, run_text};
use crate::folder::{Folder, Ran};

/// LDI @TRB,1234H; MOV @A,TRB; ADD ACCA,IDB of TRB; DPINC M8; JDPLN0 010H; JMP 7FFH.
const PROGRAM: &str =
    "chip 77C25\nprogram 0: C48D0EH 000001H 150000H 003000H 962040H A01FFCH\nprogram 7FFH: 000061H\nset DP 0FH\nset RP 3FFH\n";

#[test]
fn words_registers_and_sizes_are_the_chips() {
    let text = format!(
        "{PROGRAM}rom 3FFH: FFFFH\nram FFH: ABCDH\nrun 4\nreply 0 words 4\nexpect TRB 1234H\nexpect A 2468H\nexpect DP 80H\n\
         run 3\nexpect PC 0\nexpect A FFFFH\nexpect RP 3FFH\nexpect ram FFH ABCDH\nexpect ram 255 ABCDH\n"
    );
    run_text(&text).is_done("run 4: 0 done, 4 words\nrun 3: 0 done, 3 words\n");
}

#[test]
fn trb_and_all_rows_of_the_ram_are_shown() {
    let ran = run_text("chip 77C25\nram FFH: ABCDH\nset TRB 1234H\nset DP F0H\nshow\n");
    let lines: Vec<&str> = ran.printed.lines().collect();
    assert_eq!((ran.status, lines.len()), (0, 3 + 3 + 1 + 1 + 16));
    assert_eq!(lines[1], "A 0000H      B 0000H      K 0000H      L 0000H      TR 0000H     TRB 1234H*   DR 0000H");
    assert!(lines[23].starts_with("F0H[0000 ]0000 ") && lines[23].ends_with(" 0000  ABCD*"), "{}", lines[23]);
}

#[test]
fn a_trace_has_the_chips_mnemonics_and_changes() {
    let folder = Folder::new().with("s.desk", format!("{PROGRAM}rom 3FFH: FFFFH\nrun 7\n"));
    let expected = [
        "     1  000H  C48D0EH  LDI @TRB,1234H             TRB 1234H",
        "     2  001H  000001H  MOV @A,TRB                 A 1234H",
        "     3  002H  150000H  MOV @NON,TRB ADD ACCA,IDB  A 2468H",
        "     4  003H  003000H  DPINC M8                   DP 80H",
        "     5  004H  962040H  JDPLN0 010H",
        "     6  005H  A01FFCH  JMP 7FFH                   PC 7FFH",
        "     7  7FFH  000061H  MOV @A,RO                  A FFFFH",
    ];
    folder.desk("trace s.desk").is_done(&expected.map(|line| format!("{line}\n")).concat());
}

#[test]
fn a_trace_tells_the_chips_refusals() {
    let script = "chip 77C25\nprogram 0: 1000000H 800000H A00001H\nrun 1\nreply 4\nset PC 1\nrun 1\nreply 5\nset PC 2\nrun 1\nreply 18\n\
                  set PC 800H\nrun 1\nreply 2\n";
    let expected = [
        "        000H  1000000H  [wider than 24 bits: 1000000H]    refused 4: the word at PC is 2^24 or more",
        "        001H  800000H  JP 000H [no such jump code 000H]  refused 5: the jump code is none of the 36 that are listed",
        "        002H  A00001H  JMP 000H [spare 1]                refused 18: unused bits set",
        "        800H  no word                                    \
         refused 2: a register is too wide, the depth over 4, or SR bits 6 to 2 not 0",
    ];
    let folder = Folder::new().with("s.desk", script);
    folder.desk("trace s.desk").is_done(&expected.map(|line| format!("{line}\n")).concat());
}

/// 6 and 7 do not occur: source 0 is TRB, and a cell is as wide as the bus.
#[test]
fn what_the_77p20_refuses_by_6_and_7_is_done() {
    run_text("chip 77C25\nrom 0: FFFFH\nprogram 0: 000001H 000061H\nrun 2\n").is_done("run 2: 0 done, 2 words\n");
    let ran = run_text("chip 77C25\nprogram 0: 000001H\nrun 1\nreply 6\n");
    assert_eq!(ran, Ran::new(1, "run 1: 0 done, 1 word\n", "desk: s.desk:4:1: expected reply 6, found 0 (done)\n"));
}

#[test]
fn an_expectation_that_does_not_hold_is_told() {
    let ran = run_text("chip 77C25\nrun 1\nexpect TRB 1\n");
    assert_eq!(ran, Ran::new(1, "run 1: 0 done, 1 word\n", "desk: s.desk:3:1: expected TRB 0001H, found 0000H\n"));
}

#[test]
fn a_refusal_that_no_reply_expects_is_told_in_the_chips_words() {
    for (word, refusal) in
        [("1000000H", "4, the word at PC is 2^24 or more"), ("A02000H", "5, the jump code is none of the 36 that are listed")]
    {
        let ran = run_text(&format!("chip 77C25\nprogram 0: {word}\nrun 1\n"));
        assert_eq!(ran.told, format!("desk: s.desk:3:1: `run 1` is refused after 0 words: refusal {refusal}; no `reply` expects it\n"));
        assert_eq!(ran.status, 1);
    }
}

#[test]
fn bad_lines_speak_of_the_chips_own_sizes() {
    const NUMBERS: &str = "(numbers are written 1234H or 4660)";
    for (line, told) in [
        ("program 2048: 1", "9: \"2048:\": expected an address below 800H".to_string()),
        ("program 7FFH: 1 2", "17: \"2\": expected nothing: program has 2048 places".to_string()),
        ("rom 400H: 1", "5: \"400H:\": expected an address below 400H".to_string()),
        ("ram 100H: 1", "5: \"100H:\": expected an address below 100H".to_string()),
        ("expect ram 256 0", format!("12: \"256\": expected a RAM address, a number up to FFH {NUMBERS}")),
        ("set TRC 1", "5: \"TRC\": expected the name of a register, perhaps \"TR\"".to_string()),
    ] {
        is_bad(&format!("chip 77C25\n{line}\n"), &format!("2:{told}"));
    }
}
