//! A program of one chip that is played on the other: what is told names the right one.

use super::{is_bad, run_text};
use crate::folder::{Folder, Ran};

const HAS_24_BITS: &str = "has 24 bits: a program of the 77C25 stands behind `chip 77C25`";
const IS_SMALLER: &str = "no word has D23 set, as a jump or LDI of the 77C25 has: a program of the 77P20 stands behind `chip 77P20`";

#[test]
fn a_word_of_24_bits_on_the_77p20_names_the_77c25() {
    for word in ["800000H", "A00400H", "FFFFFFH"] {
        let told = format!("desk: s.desk:2:1: `run 9` is refused after 1 word: refusal 4, the word at PC is 2^23 or more ({word} {HAS_24_BITS}); no `reply` expects it\n");
        let ran = run_text(&format!("program 1: {word}\nrun 9\n"));
        assert_eq!(ran, Ran::new(1, "run 9: 4 the word at PC is 2^23 or more, 1 word\n", told));
    }
    let ran = run_text("program 0: 1000000H\nrun 1\n");
    assert!(ran.told.ends_with("refusal 4, the word at PC is 2^23 or more; no `reply` expects it\n"), "{ran:?}");
    run_text("program 0: A00400H\nrun 1\nreply 4\n").is_done("run 1: 4 the word at PC is 2^23 or more, 0 words\n");
}

#[test]
fn jumps_of_the_77p20_on_the_77c25_name_the_77p20() {
    // LDI @A,1234H and JMP 000H: RT on the larger chip.
    for words in ["624681H 500000H", "000000H 500000H"] {
        let ran = run_text(&format!("chip 77C25\nprogram 0: {words}\nrun 9\n"));
        assert!(
            ran.status == 1 && ran.told.ends_with(&format!("refusal 8, RT at depth 0 ({IS_SMALLER}); no `reply` expects it\n")),
            "{ran:?}"
        );
    }
    for words in ["400000H", "500000H A00000H"] {
        let ran = run_text(&format!("chip 77C25\nprogram 0: {words}\nrun 9\n"));
        assert!(ran.status == 1 && ran.told.ends_with("refusal 8, RT at depth 0; no `reply` expects it\n"), "{ran:?}");
    }
}

#[test]
fn an_address_or_register_of_the_77c25_names_it() {
    is_bad("program 200H: 1\n", "1:9: \"200H:\": expected an address below 200H; the 77C25 has 800H, behind `chip 77C25`");
    is_bad("chip 77P20\nrom 3FFH: 1\n", "2:5: \"3FFH:\": expected an address below 200H; the 77C25 has 400H, behind `chip 77C25`");
    is_bad("ram 80H: 1\n", "1:5: \"80H:\": expected an address below 80H; the 77C25 has 100H, behind `chip 77C25`");
    is_bad("program 800H: 1\n", "1:9: \"800H:\": expected an address below 200H");
    for statement in ["set TRB 1", "expect trb 1"] {
        let (name, _) = statement.split_once(' ').expect("a name");
        let register = statement.split(' ').nth(1).expect("a register");
        let told = "expected a register of the 77P20; it is one of the 77C25, behind `chip 77C25`";
        is_bad(&format!("{statement}\n"), &format!("1:{}: {register:?}: {told}", name.len() + 2));
    }
}

#[test]
fn a_mix_on_the_wrong_chip_names_the_right_one() {
    let folder = Folder::new().with("larger.desk", "program 0: 968000H 0000B9H A00000H\n");
    folder.write("smaller.desk", "chip 77C25\nprogram 0: 4B4000H 0000B9H 500000H\n");
    folder.write_sound("a.wav", 8000, &[1, 2]);
    for (script, told) in [
        ("larger.desk", format!("refusal 4 at PC 000H: the word at PC is 2^23 or more (968000H {HAS_24_BITS})")),
        ("smaller.desk", format!("refusal 8 at PC 000H: RT at depth 0 ({IS_SMALLER})")),
    ] {
        folder.desk(&format!("mix {script} --in a.wav --out b.wav --record b.record")).is_refused(1, &format!("sample 0, a.wav: {told}"));
    }
    assert_eq!(folder.names(), ["a.wav", "larger.desk", "smaller.desk"]);
}
