//! The lines of a script: capitals, quotes, patches and line ends are read; a bad line is told with its place before anything runs.

use super::{stops, succeeds};
use crate::folder::{Folder, Ran};
use desk::scripts::statement::NAMES;

const NUMBERS: &str = "(numbers are written 1234H or 4660)";

#[test]
fn a_bad_number_or_end_is_told_with_its_place_before_anything_runs() {
    let value = format!("expected a value, a number up to FFFFFFFFH {NUMBERS}");
    let cases = [
        ("run", "4: the line ends: expected a value".to_string()),
        ("run  # 5", "4: the line ends: expected a value".to_string()),
        ("run x", format!("5: \"x\": {value}")),
        ("run -1", format!("5: \"-1\": {value}")),
        ("run 0x10", format!("5: \"0x10\": {value}")),
        ("run 4294967296", format!("5: \"4294967296\": {value}")),
        ("run 1 2", "7: \"2\": expected the end of the line".to_string()),
        ("out 1", "5: \"1\": expected the end of the line".to_string()),
        ("show all", "6: \"all\": expected the end of the line".to_string()),
        ("event 1", "8: the line ends: expected a value".to_string()),
        ("sent 65536", format!("6: \"65536\": expected the word that was sent, a number up to FFFFH {NUMBERS}")),
        ("include", "8: the line ends: expected the name of a script".to_string()),
        ("rate", "5: the line ends: expected samples a second".to_string()),
        ("rate 0", "6: \"0\": expected samples a second, at least 1".to_string()),
        ("sources", "8: the line ends: expected the names of the sources".to_string()),
        ("samples", "8: the line ends: expected how many samples were sent".to_string()),
        ("samples many", format!("9: \"many\": expected how many samples were sent {NUMBERS}")),
    ];
    bad_lines(&cases);
}

#[test]
fn a_bad_address_or_word_is_told_with_its_place_before_anything_runs() {
    let address = "expected an address and a colon, as 01FH:";
    let or_file = format!("{address}, or the name of an Intel HEX file");
    let cases = [
        ("program", format!("8: the line ends: {or_file}")),
        ("program 0", format!("9: \"0\": {or_file}")),
        ("program 0 : 1", format!("9: \"0\": {or_file}")),
        ("program x: 1", format!("9: \"x:\": {or_file}")),
        ("rom", format!("4: the line ends: {address}")),
        ("ram x", format!("5: \"x\": {address}")),
        ("patch program x", format!("15: \"x\": {address}")),
        ("program 0:", "11: the line ends: expected a number".to_string()),
        ("program 511: 1 2", "16: \"2\": expected nothing: program has 512 places; the 77C25 has 2048, behind `chip 77C25`".to_string()),
        ("rom 512: 1", "5: \"512:\": expected an address below 200H; the 77C25 has 400H, behind `chip 77C25`".to_string()),
        ("ram 127: 1 2 3", "12: \"2\": expected nothing: ram has 128 places; the 77C25 has 256, behind `chip 77C25`".to_string()),
        ("rom 0: 10000H", format!("8: \"10000H\": expected a number up to FFFFH {NUMBERS}")),
        ("ram 0: 1 é", format!("10: \"é\": expected a number up to FFFFH {NUMBERS}")),
        ("patch", "6: the line ends: expected program, rom, ram or preset".to_string()),
        ("patch 0: 1", "7: \"0:\": expected program, rom, ram or preset".to_string()),
    ];
    bad_lines(&cases);
}

#[test]
fn a_bad_register_or_reply_is_told_with_its_place_before_anything_runs() {
    let value = |limit: &str| format!("expected a value, a number up to {limit} {NUMBERS}");
    let cases = [
        ("set", "4: the line ends: expected the name of a register".to_string()),
        ("set STAK0 1", "5: \"STAK0\": expected the name of a register, perhaps \"STACK0\"".to_string()),
        ("set A", "6: the line ends: expected a value".to_string()),
        ("set A 65536", format!("7: \"65536\": {}", value("FFFFH"))),
        ("set CA 2", format!("8: \"2\": {}", value("1H"))),
        ("set DEPTH 256", format!("11: \"256\": {}", value("FFH"))),
        ("reply", "6: the line ends: expected the number of a reply".to_string()),
        ("reply 0 3", "9: \"3\": expected `words` or `value`, each once".to_string()),
        ("reply 0 words 1 words 1", "17: \"words\": expected `words` or `value`, each once".to_string()),
        ("reply 0 value", "14: the line ends: expected a number".to_string()),
        ("expect", "7: the line ends: expected the name of a register".to_string()),
        ("expect OVB 1", "8: \"OVB\": expected the name of a register, perhaps \"OVB1\"".to_string()),
        ("expect ram", "11: the line ends: expected a RAM address".to_string()),
        ("expect ram 128 0", format!("12: \"128\": expected a RAM address, a number up to 7FH {NUMBERS}")),
        ("expect ram 0 65536", format!("14: \"65536\": {}", value("FFFFH"))),
    ];
    bad_lines(&cases);
}

#[track_caller]
fn bad_lines(cases: &[(&str, String)]) {
    for (line, told) in cases {
        stops(&format!("run 1\nshow\n{line}\nrun 1\n"), 2, "", &format!("s.desk:3:{told}"));
    }
}

#[test]
fn an_unknown_statement_names_the_nearest_or_all() {
    stops("run 1\n  progam 0: 1\n", 2, "", "s.desk:2:3: \"progam\": expected a statement, perhaps \"program\"");
    stops("EXPEKT A 1\n", 2, "", "s.desk:1:1: \"EXPEKT\": expected a statement, perhaps \"expect\"");
    stops("fly\n", 2, "", &format!("s.desk:1:1: \"fly\": expected a statement: {}", NAMES.join(", ")));
}

#[test]
fn an_unknown_register_names_the_nearest_or_all() {
    let ran = Folder::new().with("s.desk", "set volume 1\n").desk("run s.desk");
    assert_eq!(ran.status, 2);
    assert!(ran.told.starts_with("desk: s.desk:1:5: \"volume\": expected the name of a register: PC, STACK0, "), "{ran:?}");
    stops("set soak 1\n", 2, "", "s.desk:1:5: \"soak\": expected the name of a register, perhaps \"SOACK\"");
}

#[test]
fn bytes_that_are_no_text_are_told_with_their_column() {
    let ran = Folder::new().with("s.desk", b"run 1\nset \xff\n").desk("run s.desk");
    ran.is_refused(2, "s.desk:2:5: bytes that are no text: expected UTF-8");
}

#[test]
fn capitals_and_a_byte_order_mark_and_windows_line_ends_are_read() {
    let printed = "run 1: 0 done, 1 word\n";
    succeeds("\u{feff}RUN 1\r\nExpect pc 001h\r\nREPLY 0 WORDS 1\r\n", printed);
    succeeds("\u{feff}# a comment\nPROGRAM 0: 0\nPatch Program 0: 0\nrUN 1", printed);
    stops("run 0\n\u{feff}run 1\n", 2, "", "s.desk:2:1: \"\\u{feff}run\": expected a statement, perhaps \"run\"");
}

#[test]
fn quotes_hold_a_name_with_spaces_together() {
    let folder = Folder::new().with("my part.desk", "run 1\n").with("s.desk", "sources \"a # b\" c\ninclude \"my part.desk\" # a part\n");
    folder.desk("run s.desk").is_done("run 1: 0 done, 1 word\n");
    stops("include \"my part\n", 2, "", "s.desk:1:9: a quote that does not end on its line: expected another");
    stops("sources a\"b\"\n", 2, "", "s.desk:1:10: \"a\" and a quote: expected a space between");
    stops("\"run\" 1\n", 2, "", "s.desk:1:1: \"run\": expected a statement, perhaps \"run\"");
}

#[test]
fn an_address_that_is_given_twice_is_refused_with_both_lines() {
    let cases = [
        ("program 0: 1 2 3", "program 2: 4", "program 002H"),
        ("rom 5: 1", "rom 5: 1", "rom 005H"),
        ("ram 7FH: 1", "RAM 126: 1 2", "ram 07FH"),
    ];
    for (first, second, place) in cases {
        let memory = place.split(' ').next().expect("a name");
        let told = format!("s.desk:3:1: {place} was given before, at s.desk:1:1: expected each once, or `patch {memory}`");
        stops(&format!("{first}\nrun 1\n{second}\n"), 2, "", &told);
    }
}

#[test]
fn an_address_that_two_scripts_give_is_refused_with_both_places() {
    let folder = Folder::new().with("top.desk", "include part.desk\n  ram 1: 2\n").with("part.desk", "\nram 0: 1 1\n");
    let told = "top.desk:2:3: ram 001H was given before, at part.desk:2:1: expected each once, or `patch ram`";
    folder.desk("run top.desk").is_refused(2, told);
}

#[test]
fn a_patch_goes_over_what_was_given_before() {
    let text =
        "program 0: 624681H 000001H\nram 0: 1 2 3\nrun 1\nexpect A 1234H\npatch program 1: 6FFFE1H\npatch ram 1: 9\npatch ram 1: 8\n\
                run 1\nexpect A 7FFFH\nexpect ram 1 8\nexpect ram 2 3\n";
    succeeds(text, "run 1: 0 done, 1 word\nrun 1: 0 done, 1 word\n");
}

#[test]
fn nothing_stands_after_the_number_of_samples() {
    succeeds("samples 0\n\n# the end\n", "");
    for behind in ["run 1", "samples 0", "show", "include none.desk"] {
        let told = "s.desk:3:1: a statement: expected nothing after the `samples` at s.desk:1:1";
        stops(&format!("samples 0\n\n{behind}\n"), 2, "", told);
    }
}

#[test]
fn a_line_without_end_is_refused() {
    let ran = Folder::new().with("s.desk", "1 ".repeat(1 << 16)).desk("run s.desk");
    assert_eq!(ran, Ran::new(2, "", "desk: s.desk:1:1: a line of more than 65536 bytes: expected a script\n"));
}
