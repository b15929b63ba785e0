//! `desk check-image`: a line a word that is refused wherever it stands, a line a file in the order given, the counts, and the status.

use crate::folder::{ended, examples, Folder, Ran};
use crate::images::{program, with_line};
use desk::images::{load, Image};
use std::path::Path;

const GOOD: &str = "good: none of 512 words is refused by 4, 5 or 18";

/// A program of words that run, with these at these addresses.
fn with_words(words: &[(usize, u32)]) -> String {
    let mut all = [0; 512];
    words.iter().for_each(|(address, word)| all[*address] = *word);
    program(&all)
}

#[test]
fn a_good_image_is_told_so() {
    let folder = Folder::new().with("p.hex", with_words(&[(0, 0x501000), (511, 0x4bf120), (1, 0x7fffef), (2, 0x3fffff)]));
    folder.desk("check-image p.hex").is_done(&format!("p.hex: {GOOD}\n1 image: good 1, faulty 0, refused 0, unreadable 0\n"));
    folder
        .desk("check-image p.hex ./p.hex")
        .is_done(&format!("p.hex: {GOOD}\n./p.hex: {GOOD}\n2 images: good 2, faulty 0, refused 0, unreadable 0\n"));
}

#[test]
fn every_faulty_word_is_told_by_its_address() {
    let words = [(0, 0x500001), (1, 0x624691), (0x100, 0x400000), (0x1ff, 0xffff_ffff)];
    let folder = Folder::new().with("worn.hex", with_words(&words)).with("one.hex", with_words(&words[3..]));
    let lines = [
        "000H  500001H  JMP 000H [spare 1]  refusal 18, unused bits set: spare D0",
        "001H  624691H  LDI @A,1234H [spare 1]  refusal 18, unused bits set: spare D4",
        "100H  400000H  JP 000H [no such branch 000]  refusal 5, BRCH is none of 010, 100, 101: BRCH D20-18 is 000",
        "1FFH  FFFFFFFFH  [wider than 23 bits: FFFFFFFFH]  refusal 4, the word at PC is 2^23 or more: D31-23",
    ];
    let told = lines.map(|line| format!("worn.hex: {line}\n")).concat();
    let counts = "1 image: good 0, faulty 1, refused 0, unreadable 0\n";
    let printed = format!("{told}worn.hex: faulty: 4 of 512 words are refused by 4, 5 or 18\n{counts}");
    assert_eq!(folder.desk("check-image worn.hex"), Ran::new(1, printed, "desk: the image is not good\n"));
    let printed = format!("one.hex: {}\none.hex: faulty: 1 of 512 words is refused by 4, 5 or 18\n{counts}", lines[3]);
    assert_eq!(folder.desk("check-image one.hex"), Ran::new(1, printed, "desk: the image is not good\n"));
}

#[test]
fn every_word_may_be_faulty() {
    let ran = Folder::new().with("ones.hex", program(&[u32::MAX; 512])).desk("check-image ones.hex");
    assert_eq!((ran.status, ran.printed.lines().count()), (1, 514));
    assert!(ran.printed.contains("\nones.hex: faulty: 512 of 512 words are refused by 4, 5 or 18\n"), "{ran:?}");
}

#[test]
fn each_file_gets_its_line_in_the_order_given() {
    let good = with_words(&[]);
    let cut: String = good.split_inclusive('\n').take(40).collect();
    let folder = Folder::new().with("p.hex", &good).with("cut.hex", cut).with("worn.hex", with_words(&[(3, 0x600010)]));
    let ran = folder.desk("check-image gone.hex cut.hex worn.hex p.hex");
    let begins = [
        "gone.hex: unreadable: gone.hex: cannot read: No such file",
        "cut.hex: refused: cut.hex:40: refusal 15, ",
        "worn.hex: 003H  600010H  LDI @NON,0000H [spare 1]  refusal 18, unused bits set: spare D4",
        "worn.hex: faulty: 1 of 512 words is refused by 4, 5 or 18",
        "p.hex: good: ",
        "4 images: good 1, faulty 1, refused 1, unreadable 1",
    ];
    let lines: Vec<&str> = ran.printed.lines().collect();
    assert_eq!((ran.status, lines.len(), ran.told.as_str()), (2, begins.len(), "desk: 3 of 4 images are not good\n"));
    assert!(lines.iter().zip(begins).all(|(line, begin)| line.starts_with(begin)), "{ran:?}");
    assert_eq!(folder.desk("check-image cut.hex p.hex").status, 1);
    assert_eq!(folder.desk("check-image worn.hex p.hex").status, 1);
}

/// A data ROM or a preset has fewer addresses than a program.
#[test]
fn an_image_of_something_else_is_refused() {
    let folder = Folder::new();
    for name in ["intel_hex/data.hex", "presets/monday.hex", "mixing/mixing.desk"] {
        folder.copy_example(name);
    }
    for (file, number) in [("data.hex", 15), ("monday.hex", 15), ("mixing.desk", 12)] {
        let ran = folder.desk(&format!("check-image {file}"));
        assert!(ran.status == 1 && ran.printed.contains(&format!(": refusal {number}, ")), "{ran:?}");
    }
}

#[test]
fn a_hyphen_is_standard_input_once() {
    let folder = Folder::new().with("p.hex", with_words(&[]));
    let worn = with_words(&[(9, 0x544000)]);
    let line = "standard input: 009H  544000H  CALL 000H [CND 2]  refusal 18, unused bits set: CND D14";
    let ran = folder.desk_with_input("check-image p.hex -", worn.as_bytes());
    assert!(ran.status == 1 && ran.printed.contains(&format!("p.hex: {GOOD}\n{line}\nstandard input: faulty: 1 of 512")), "{ran:?}");
    let ran = folder.desk("check-image - p.hex -");
    assert!(ran.status == 2 && ran.told.starts_with("desk: - a second time: standard input can be read once: "), "{ran:?}");
}

#[test]
fn bad_use_is_told() {
    let expected = "expected `desk check-image FILE..`, where one of them may be - for standard input";
    let folder = Folder::new();
    folder.desk("check-image").is_refused(2, &format!("no image: {expected}"));
    folder.desk("check-image --all x.hex").is_refused(2, &format!("\"--all\" is no option: {expected}"));
}

#[cfg(target_os = "linux")]
#[test]
fn a_full_disk_keeps_no_verdict_back() {
    let folder = Folder::new().with("p.hex", with_words(&[])).with("worn.hex", with_words(&[(0, 0x500008)]));
    for (file, status, last) in [("p.hex", 2, ""), ("worn.hex", 1, "\ndesk: the image is not good\n")] {
        let full = std::fs::OpenOptions::new().write(true).open("/dev/full").expect("a full device");
        let ran = ended(folder.command(&["check-image", file]).stdout(full).spawn().expect("desk runs"));
        assert!(ran.status == status && ran.told.starts_with("desk: standard output: cannot write: "), "{ran:?}");
        assert!(ran.told.ends_with(last), "{ran:?}");
    }
}

/// A damaged record is refused as a text, before any word is looked at.
#[test]
fn a_text_with_a_wrong_check_byte_is_refused() {
    let text = with_words(&[(0, 0x500001)]);
    let first = text.split_inclusive('\n').next().expect("a line").replace("01005000", "01005001");
    let ran = Folder::new().with("x.hex", with_line(&text, 1, &first)).desk("check-image x.hex");
    assert!(ran.status == 1 && ran.printed.starts_with("x.hex: refused: x.hex:1:") && ran.printed.contains("refusal 13, "), "{ran:?}");
}

/// The example is the mixing program with one bit more in each of four words.
#[test]
fn the_example_is_a_worn_mixing_program() {
    let words = |name: &str| {
        let file = examples().join("intel_hex").join(name);
        load(Image::Program, Path::new(name), &std::fs::read(file).expect("an example")).expect("a program")
    };
    let (written, worn) = (words("mixing.hex"), words("worn.hex"));
    let other: Vec<usize> = (0..512).filter(|address| written[*address] != worn[*address]).collect();
    assert_eq!(other, [0x005, 0x00c, 0x00d, 0x010]);
    assert!(other.iter().all(|at| worn[*at] & written[*at] == written[*at] && (worn[*at] ^ written[*at]).count_ones() == 1));
    let folder = Folder::new();
    folder.copy_example("intel_hex/worn.hex");
    let ran = folder.desk("check-image worn.hex");
    for (line, address) in ran.printed.lines().zip(other) {
        assert!(line.starts_with(&format!("worn.hex: {address:03X}H  ")), "{ran:?}");
    }
    assert_eq!((ran.status, ran.printed.lines().count()), (1, 6));
}
