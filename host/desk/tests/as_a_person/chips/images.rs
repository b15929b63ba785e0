//! Images and presets in Intel HEX stay with the 77P20: given to the 77C25, or made for it, they are refused with a word about the right chip.

use super::run_text;
use crate::folder::Folder;
use crate::images::{data, program, text};

const WORDS: &str = "images in Intel HEX are of the 77P20: expected the words in the script, as `program 000H: WORD ..`";
const CELLS: &str = "images in Intel HEX are of the 77P20: expected the cells in the script, as `rom 000H: CELL ..`";
const PRESET: &str = "presets in Intel HEX are of the 77P20: expected the cells in the script, as `ram 000H: WORD ..`";

fn images() -> Folder {
    Folder::new().with("p.hex", program(&[])).with("d.hex", data(0, 0)).with("m.hex", text(&[0; 256])).with("s.desk", "chip 77C25\nrun 1\n")
}

#[test]
fn a_statement_that_names_an_image_is_refused_behind_the_larger_chip() {
    for (statement, refused) in [("program p.hex", WORDS), ("data d.hex", CELLS), ("preset m.hex", PRESET), ("patch preset m.hex", PRESET)]
    {
        let (words, file) = statement.rsplit_once(' ').expect("a file");
        let folder = images().with("s.desk", format!("chip 77C25\n{statement}\nrun 1\n"));
        let told = format!("s.desk:2:{}: {file:?} behind the `chip 77C25` at s.desk:1:1: {refused}", words.len() + 2);
        for command in ["run", "trace"] {
            folder.desk(&format!("{command} s.desk")).is_refused(2, &told);
        }
        // Whatever stands in the file.
        folder.write(file, "");
        folder.desk("run s.desk").is_refused(2, &told);
        folder.write("s.desk", format!("chip 77P20\n{}\nrun 1\n", statement));
        folder.write(file, images().read(file));
        assert_eq!(folder.desk("run s.desk").status, 0);
    }
}

#[test]
fn an_option_that_gives_an_image_is_refused_with_the_larger_chip() {
    for (option, refused) in [("--program p.hex", WORDS), ("--data d.hex", CELLS), ("--preset m.hex", PRESET)] {
        let (_, file) = option.split_once(' ').expect("a file");
        let (folder, told) = (images(), format!("s.desk:1:1: `chip 77C25` behind {file}: {refused}"));
        for command in ["run", "run --quiet", "trace"] {
            folder.desk(&format!("{command} {option} s.desk")).is_refused(2, &told);
        }
        folder.desk(&format!("preset write {option} s.desk --out new.hex")).is_refused(2, &told);
        folder.write_sound("a.wav", 8000, &[1]);
        folder.write("t.desk", super::THROUGH);
        let told = told.replace("s.desk", "t.desk");
        folder.desk(&format!("mix {option} t.desk --in a.wav --out b.wav")).is_refused(2, &told);
        assert_eq!(folder.names(), ["a.wav", "d.hex", "m.hex", "p.hex", "s.desk", "t.desk"]);
        folder.desk_with_input(&format!("run {option} -"), b"chip 77P20\nrun 1\n").is_done("run 1: 0 done, 1 word\n");
    }
}

#[test]
fn an_image_of_the_77c25_is_told_by_its_last_address() {
    let outside = "refusal 15, address outside, given twice or missing";
    for (option, bytes, line, first, last, of) in [
        ("--program", 8192, 129, "0800H", "07FFH", "1FFFH is the last, as of a program of the 77C25, whose words stand"),
        (
            "--data",
            2048,
            65,
            "0400H",
            "03FFH",
            "07FFH is the last, as of a program of the 77P20, or a data ROM of the 77C25, whose cells stand",
        ),
        ("--preset", 512, 17, "0100H", "00FFH", "01FFH is the last, as of the RAM of the 77C25, whose cells stand"),
    ] {
        let folder = Folder::new().with("large.hex", text(&vec![0; bytes])).with("s.desk", "run 1\n");
        let ran = folder.desk(&format!("run {option} large.hex s.desk"));
        let told = format!("desk: large.hex:{line}:4: {outside}: {first} is outside: expected 0000H to {last}; {of} in a script behind `chip 77C25`: \":10");
        assert!(ran.status == 2 && ran.printed.is_empty() && ran.told.starts_with(&told), "{ran:?}\n{told}");
    }
    let folder = Folder::new().with("large.hex", text(&[0; 8192]));
    let ran = folder.desk("check-image large.hex");
    assert!(
        ran.status == 1 && ran.printed.contains("as of a program of the 77C25, whose words stand in a script behind `chip 77C25`"),
        "{ran:?}"
    );
}

/// What goes on a little further is only outside.
#[test]
fn an_image_of_another_length_is_not_called_one_of_the_77c25() {
    for (option, bytes) in [("--program", 2064), ("--program", 8208), ("--data", 1040), ("--preset", 272)] {
        let folder = Folder::new().with("other.hex", text(&vec![0; bytes])).with("s.desk", "run 1\n");
        let ran = folder.desk(&format!("run {option} other.hex s.desk"));
        assert!(ran.status == 2 && ran.told.contains("is outside") && !ran.told.contains("77C25"), "{ran:?}");
    }
}

#[test]
fn no_preset_is_written_of_the_larger_chip() {
    let folder = images();
    let told = "s.desk:1:1: `chip 77C25`: presets in Intel HEX are of the 77P20: expected a script for that";
    folder.desk("preset write s.desk --out new.hex").is_refused(2, told);
    folder.desk("preset write s.desk --events 0 --out -").is_refused(2, told);
    assert_eq!(folder.names(), ["d.hex", "m.hex", "p.hex", "s.desk"]);
}

#[test]
fn an_image_before_the_statement_in_a_script_is_a_statement_before_it() {
    let folder = images().with("s.desk", "program p.hex\nchip 77C25\n");
    let told = "s.desk:2:1: `chip 77C25`: expected before all that depends on it; a `program` stands at s.desk:1:1";
    folder.desk("run s.desk").is_refused(2, told);
    assert_eq!(run_text("chip 77C25\n").status, 0);
}
