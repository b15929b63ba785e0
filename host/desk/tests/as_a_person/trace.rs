//! `desk trace` as a person uses it: what it prints, and that it judges as `desk run` does.

use crate::folder::{ended, Folder, Ran};

/// What is printed for a script, which must be traced without a fault.
#[track_caller]
fn traced(text: &str, options: &str) -> String {
    printed(Folder::new().with("s.desk", text).desk(&format!("trace s.desk {options}")))
}

#[track_caller]
fn printed(ran: Ran) -> String {
    assert_eq!((ran.status, ran.told.as_str()), (0, ""));
    ran.printed
}

const PROGRAM: &str = "
program 0: 624681H 000012H 6FFFE1H 0A8010H  # load, move, load, and a sum with overflow
program 4: 00102FH 498000H 49A080H 000000H  # store, a jump not taken, a jump taken, and one word that is passed over
program 8: 540100H 000001H                  # a call, and a word that is refused
program 10H: 200000H
";

const TRACED: [&str; 10] = [
    "     1  000H  624681H  LDI @A,1234H             A 1234H",
    "     2  001H  000012H  MOV @B,A                 B 1234H",
    "     3  002H  6FFFE1H  LDI @A,7FFFH             A 7FFFH",
    "     4  003H  0A8010H  MOV @NON,A ADD ACCA,IDB  A FFFEH  SA1 1  SA0 1  OVA1 1  OVA0 1",
    "     5  004H  00102FH  MOV @MEM,B DPINC         DP 01H  RAM 00H 1234H",
    "     6  005H  498000H  JNOVA1 000H",
    "     7  006H  49A080H  JOVA1 008H               PC 008H",
    "     8  008H  540100H  CALL 010H                PC 010H  STACK0 009H  DEPTH 1H",
    "     9  010H  200000H  RET                      PC 009H  DEPTH 0H",
    "        009H  000001H  MOV @A,NON               refused 6: SRC none where the bus is used",
];

fn lines(lines: &[&str]) -> String {
    lines.iter().map(|line| format!("{line}\n")).collect()
}

#[test]
fn each_word_prints_what_it_changed() {
    assert_eq!(traced(&format!("{PROGRAM}run 100\nreply 6 words 9"), ""), lines(&TRACED));
}

#[test]
fn one_run_and_many_print_the_same() {
    let many = "run 1\nrun 3\nevent 0 1\nrun 4\n";
    assert_eq!(traced(&format!("{PROGRAM}{many}"), ""), lines(&TRACED[..9]));
}

#[test]
fn a_refused_word_counts_nothing_and_the_script_goes_on() {
    let expected = [
        "        000H  000001H  MOV @A,NON           refused 6: SRC none where the bus is used",
        "        000H  000001H  MOV @A,NON           refused 6: SRC none where the bus is used",
        "     1  001H  000000H  NOP",
        "     2  002H  000000H  NOP",
    ];
    assert_eq!(traced("program 0: 1\nrun 2\nreply 6\nrun 1\nreply 6\nset PC 1\nrun 2", ""), lines(&expected));
}

#[test]
fn pc_is_shown_unless_it_stepped_to_the_next_address() {
    let expected = ["     1  1FFH  000000H  NOP", "     2  000H  500010H  JMP 001H", "     3  001H  500010H  JMP 001H             PC 001H"];
    assert_eq!(traced("program 0: 500010H 500010H\nset PC 1FFH\nrun 3", ""), lines(&expected));
}

#[test]
fn words_that_do_not_fit_are_refused_with_what_can_be_said() {
    let script = "program 0: 800000H 4C1004H\nrun 1\nreply 4\nset PC 1\nrun 1\nreply 5\nset PC 200H\nrun 1\nreply 2";
    let expected = [
        "        000H  800000H  [wider than 23 bits: 800000H]           refused 4: the word at PC is 2^23 or more",
        "        001H  4C1004H  JP 100H [no such branch 011] [spare 4]  refused 5: BRCH is none of 010, 100, 101",
        "        200H  no word                                          \
         refused 2: a register is too wide, the depth over 4, or SR bits 6 to 2 not 0",
    ];
    assert_eq!(traced(script, ""), lines(&expected));
}

#[test]
fn serial_events_print_their_replies_and_changes() {
    let script = "program 0: 0000B9H\nout\nreply 10\nin 4000H\nrun 1\nout\nin 65536\nreply 3\n";
    let expected = [
        "        out                                 refused 10: serial out with SORQ 0",
        "        in 4000H       reply 0              SI 4000H  SIACK 1",
        "     1  000H  0000B9H  MOV @SOM,SIM         SO 4000H  SIACK 0  SORQ 1",
        "        out            reply 0 value 4000H  SOACK 1  SORQ 0",
        "        in 10000H                           refused 3: event kind over 7, or value not allowed",
    ];
    assert_eq!(traced(script, ""), lines(&expected));
}

#[test]
fn host_events_interrupt_and_reset_print_a_line_each() {
    let script = "set DR 1234H\nset SR 8080H\nstatus\nread\nread\nwrite 56H\ninterrupt\ninterrupt\nreset\nwrite 256\nreply 3\n";
    let expected = [
        "        status         reply 0 value 80H",
        "        read           reply 0 value 34H    SR 9080H",
        "        read           reply 0 value 12H    SR 0080H",
        "        write 56H      reply 0              DR 1256H  SR 1080H",
        "        interrupt      reply 0 words 2      PC 100H  DEPTH 1H  SR 1000H",
        "        interrupt      reply 0 words 0      ignored: EI is 0",
        "        reset          reply 0              PC 000H  DEPTH 0H  SR 0000H",
        "        write 100H                          refused 3: event kind over 7, or value not allowed",
    ];
    assert_eq!(traced(script, ""), lines(&expected));
}

/// `--from` and `--count` speak of the words that have a line.
#[test]
fn the_two_words_of_an_interrupt_stand_in_its_reply_and_have_no_number() {
    let script = "set SR 80H\nrun 1\ninterrupt\nrun 2\n";
    let expected = [
        "     1  000H  000000H  NOP",
        "        interrupt      reply 0 words 2      PC 100H  STACK0 001H  DEPTH 1H  SR 0000H",
        "     2  100H  000000H  NOP",
        "     3  101H  000000H  NOP",
    ];
    assert_eq!(traced(script, ""), lines(&expected));
    assert_eq!(traced(script, "--from 2"), lines(&expected[3..]));
    assert_eq!(traced(script, "--from 1 --count 1"), lines(&expected[1..3]));
}

#[test]
fn runs_of_no_words_or_too_many_and_unknown_events_are_answered() {
    let script = "run 0\nrun 65536\nreply 3\nrun 4294967295\nreply 3\nevent 8 5\nreply 3\nevent 5 1\nreply 3\n";
    let expected = [
        "        run 0          reply 0 words 0",
        "        run 65536                           refused 3: event kind over 7, or value not allowed",
        "        run 4294967295                       refused 3: event kind over 7, or value not allowed",
        "        event 8 5                           refused 3: event kind over 7, or value not allowed",
        "        event 5 1                           refused 3: event kind over 7, or value not allowed",
    ];
    assert_eq!(traced(script, ""), lines(&expected));
}

#[test]
fn images_and_registers_that_the_script_sets_are_used() {
    let expected = ["     1  005H  00006FH  MOV @MEM,RO          RAM 7FH 0918H"];
    assert_eq!(traced("program 5: 00006FH\nrom 9: 123H\nram 7FH: 1\nset PC 5\nset RP 9\nset DP 7FH\nrun 1", ""), lines(&expected));
}

#[test]
fn from_skips_words_and_the_events_before_them() {
    let script = format!("{PROGRAM}in 1\nrun 8\nin 2\nrun 2\nreply 6\nin 3");
    let input = "        in 0002H       reply 0                  SI 0002H";
    let last = "        in 0003H       reply 0                  SI 0003H";
    assert_eq!(traced(&script, "--from 8"), lines(&[input, TRACED[8], TRACED[9], last]));
    assert_eq!(traced(&script, "--from 9"), lines(&[TRACED[9], last]));
    assert_eq!(traced(&script, "--from 10"), "");
    assert_eq!(traced(&script, "--from 0FFFFFFFFH"), "");
}

#[test]
fn count_stops_after_so_many_words() {
    let script = format!("{PROGRAM}run 5\nin 1\nrun 5\nreply 6\n");
    assert_eq!(traced(&script, "--count 5"), lines(&TRACED[..5]));
    assert_eq!(traced(&script, "--count 0"), "");
    assert_eq!(traced(&script, "--from 2H --count 0AH").lines().count(), 9);
    assert_eq!(traced(&script, "--count 2 --from 6"), lines(&TRACED[6..8]));
    assert_eq!(traced(&script, "--count 18446744073709551615 --from 4294967296"), "");
}

#[test]
fn options_may_stand_before_the_script() {
    let folder = Folder::new().with("s.desk", format!("{PROGRAM}run 9\n"));
    folder.desk("trace --from 3 s.desk --count 1").is_done(&lines(&TRACED[3..4]));
    folder.desk("trace --count 1 --from 3 s.desk").is_done(&lines(&TRACED[3..4]));
}

#[test]
fn a_hyphen_is_standard_input() {
    let ran = Folder::new().desk_with_input("trace - --count 2", format!("{PROGRAM}run 9\n").as_bytes());
    ran.is_done(&lines(&TRACED[..2]));
}

/// Scripts that fail, their status and what is told: as `desk run` tells it, whatever is printed.
#[test]
fn a_trace_judges_as_a_run_does() {
    let cases = [
        "run 1\nreply 5 words 7 value 9\n",
        "run 1\nexpect A 1\n",
        "run 1\nexpect ram 0 1\n",
        "set SO 7\nset SORQ 1\nout\nsent 8\n",
        "program 0: 1\nrun 4\n",
        "program 2: 1\nrun 4\nrun 1\n",
        "out\n",
        "run 1\nsent 1\n",
        "reply 0\n",
        "samples 1\n",
        "run 9\nexpect PC 9\nrun 9\nexpect PC 9\n",
        "run x\n",
    ];
    for text in cases {
        let folder = Folder::new().with("s.desk", text);
        let judged = folder.desk("run --quiet s.desk");
        assert_ne!(judged.status, 0, "{text}");
        for options in ["", "--from 1 --count 1"] {
            let ran = folder.desk(&format!("trace s.desk {options}"));
            assert_eq!((ran.status, &ran.told), (judged.status, &judged.told), "{text}{options}");
        }
    }
}

/// `--count` ends the printing; every word behind it is run and judged all the same, in one run of any length.
#[test]
fn what_comes_behind_the_count_is_played() {
    let text = "program 0: 624681H\nrun 65535\nrun 1000\nexpect A 1234H\nexpect PC 1E7H\nin 5\nexpect SI 5\nset SORQ 1\nout\nsent 0\n";
    assert_eq!(traced(text, "--count 1"), "     1  000H  624681H  LDI @A,1234H         A 1234H\n");
    let wrong = text.replace("1E7H", "1E8H");
    let ran = Folder::new().with("s.desk", wrong).desk("trace --count 1 s.desk");
    assert_eq!((ran.status, ran.told.as_str()), (1, "desk: s.desk:5:1: expected PC 1E8H, found 1E7H\n"));
}

#[test]
fn a_refused_run_is_counted_behind_the_count_too() {
    let folder = Folder::new().with("s.desk", "program 9: 1\nrun 5\nrun 100\nreply 6 words 4\n");
    for options in ["", "--count 0", "--count 2", "--count 7", "--count 9"] {
        assert_eq!(folder.desk(&format!("trace s.desk {options}")).status, 0, "{options}");
    }
}

#[test]
fn bad_use_says_what_was_expected() {
    let folder = Folder::new().with("s.desk", "run 1\n");
    let usage = "expected `desk trace [--from N] [--count N] [--program FILE] [--data FILE] [--preset FILE] SCRIPT`, \
                 where N is a number of words and a script of - is standard input";
    let cases = [
        ("trace", "no script"),
        ("trace --from 1", "no script"),
        ("trace s.desk other", "\"other\" is a second script"),
        ("trace - -", "\"-\" is a second script"),
        ("trace s.desk --form 1", "\"--form\" is no option"),
        ("trace --from=1 s.desk", "\"--from=1\" is no option"),
    ];
    for (line, told) in cases {
        folder.desk(line).is_refused(2, &format!("{told}: {usage}"));
    }
    for option in ["--from", "--count"] {
        folder.desk(&format!("trace s.desk {option}")).is_refused(2, &format!("{option}: expected a number of words: {usage}"));
        folder.desk(&format!("trace {option} 1 s.desk {option} 1")).is_refused(2, &format!("{option} a second time: {usage}"));
        for text in ["", "ten", "12A", "18446744073709551616", "s.desk"] {
            let told = format!("{option} {text:?}: expected a number, as 20 or 14H");
            folder.desk_of(&["trace", option, text, "s.desk"]).is_refused(2, &told);
        }
    }
}

#[test]
fn a_script_that_cannot_be_read_is_bad_input() {
    let folder = Folder::new().with("s.desk", "run 1\nrun x\n");
    let told = "s.desk:2:5: \"x\": expected a value, a number up to FFFFFFFFH (numbers are written 1234H or 4660)";
    folder.desk("trace s.desk").is_refused(2, told);
    let missing = folder.desk("trace /no/such/script");
    assert_eq!(missing.status, 2);
    assert!(missing.told.starts_with("desk: /no/such/script: cannot read: "), "{missing:?}");
}

#[cfg(target_os = "linux")]
#[test]
fn an_output_that_cannot_be_written_is_a_fault() {
    let folder = Folder::new().with("s.desk", "run 1\n");
    let full = std::fs::OpenOptions::new().write(true).open("/dev/full").expect("a full device");
    let ran = ended(folder.command(&["trace", "s.desk"]).stdout(full).spawn().expect("desk runs"));
    assert!(ran.told.starts_with("desk: standard output: cannot write: "), "{ran:?}");
    assert_eq!(ran.status, 2);
}
