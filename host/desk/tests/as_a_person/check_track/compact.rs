//! Compact records: cut or altered anywhere, they never agree.

use super::trial::{good, with_sent};
use crate::folder::Folder;
use random::Random;

/// A folder with a compact record of so many samples of the trial, and its bytes.
fn recorded(samples: usize) -> (Folder, Vec<u8>) {
    let folder = Folder::with_trial().with("good.txt", good(samples));
    assert_eq!(folder.desk("convert good.txt good.record").status, 0);
    let bytes = folder.read("good.record");
    (folder, bytes)
}

#[test]
fn a_compact_record_agrees_as_its_text_does() {
    let (folder, _) = recorded(48);
    folder.check("good.record").is("agrees", "48 samples (0:00:00.001), all as the chip sends them");
    folder.check("good.txt").is("agrees", "48 samples (0:00:00.001), all as the chip sends them");
}

#[test]
fn a_compact_record_differs_as_its_text_does() {
    let folder = Folder::with_trial().with("x.txt", with_sent(&good(48), 30, 0x0123));
    assert_eq!(folder.desk("convert x.txt x.record").status, 0);
    let (text, compact) = (folder.check("x.txt"), folder.check("x.record"));
    // Its place is a statement's, since it has no lines.
    let parts = |sentence: &str, place: &str| {
        let (before, rest) = sentence.split_once(place).expect("a place");
        format!("{before} {}", rest.split_once(')').expect("its end").1)
    };
    assert_eq!([text.verdict.as_str(), compact.verdict.as_str()], ["differs"; 2]);
    assert_eq!(parts(&compact.sentence, " (x.record: statement "), parts(&text.sentence, " (x.txt:"));
}

#[test]
fn a_compact_record_that_is_cut_is_incomplete() {
    let (folder, bytes) = recorded(48);
    let fiftieths = (0..50).map(|fiftieth| bytes.len() * fiftieth / 50).chain(bytes.len() - 40..bytes.len());
    for checked in folder.check_each(fiftieths.map(|end| &bytes[..end])) {
        checked.begins("incomplete", "the record is cut: ");
    }
    for end in [0, 1, 11, 12, bytes.len() / 2, bytes.len() - 1] {
        folder.write("x.record", &bytes[..end]);
        assert_eq!(folder.desk("check-track x.record").status, 1);
    }
}

/// Where the blocks end: behind twelve bytes each has a tag, the length of its payload in four bytes, the payload and eight more.
fn ends_of_blocks(record: &[u8]) -> Vec<usize> {
    let mut ends = vec![12];
    while let Some(length) = ends.last().and_then(|at| record.get(at + 1..at + 5)) {
        let length = u32::from_le_bytes(length.try_into().expect("four bytes")) as usize;
        ends.extend(ends.last().map(|at| at + 5 + length + 8));
    }
    ends
}

/// What is left is right as far as it goes; only its end is missing.
#[test]
fn a_compact_record_that_is_cut_between_its_blocks_is_incomplete() {
    let folder = Folder::new().with("through.desk", "program 0: 4B4000H 0000B9H 500000H\n");
    folder.write_sound("booth.wav", 48000, &(0..140_000).map(|at| at as i16).collect::<Vec<i16>>());
    assert_eq!(folder.desk("mix through.desk --in booth.wav --out track.wav --record whole.record").status, 0);
    let record = folder.read("whole.record");
    let ends = ends_of_blocks(&record);
    assert!(ends.len() > 4 && ends.last() == Some(&record.len()), "{ends:?}");
    for end in &ends[..ends.len() - 1] {
        folder.write("x.record", &record[..*end]);
        folder.check("x.record").says("incomplete", "the record ends without an end block: expected its end; it was cut, or is ");
    }
}

#[test]
fn a_compact_record_with_a_bit_turned_never_agrees() {
    let (folder, bytes) = recorded(48);
    let mut random = Random::new(7720);
    // Every place of the first and last bytes, and some of those between.
    let between: Vec<usize> = (0..280).map(|_| random.place(bytes.len())).collect();
    let places = (0..60).chain(between).chain(bytes.len() - 60..bytes.len());
    let checked = folder.check_each(places.map(|at| with_a_bit_turned(&bytes, at, random.below(8))).collect::<Vec<Vec<u8>>>());
    assert!(checked.iter().all(|track| matches!(track.verdict.as_str(), "incomplete" | "unreadable")), "{checked:?}");
    assert!(checked.iter().filter(|track| track.verdict == "unreadable").count() > 350);
}

fn with_a_bit_turned(bytes: &[u8], at: usize, bit: u32) -> Vec<u8> {
    let mut altered = bytes.to_vec();
    altered[at] ^= 1 << bit;
    altered
}

#[test]
fn a_compact_record_with_a_bit_turned_is_refused_alone_too() {
    let (folder, bytes) = recorded(48);
    let mut random = Random::new(1);
    for _ in 0..20 {
        folder.write("x.record", with_a_bit_turned(&bytes, random.place(bytes.len()), random.below(8)));
        assert!(matches!(folder.desk("check-track x.record").status, 1 | 2));
    }
}

#[test]
fn a_compact_record_with_a_word_sent_that_is_another_is_unreadable() {
    let (folder, bytes) = recorded(48);
    let sent = u16::from_str_radix(good(48).lines().find_map(|line| line.strip_prefix("sent ")).expect("a word").trim_end_matches('H'), 16);
    let sent = sent.expect("a number").to_le_bytes();
    let at = bytes.windows(2).position(|two| two == sent).expect("the word in the record");
    folder.write("x.record", with_a_bit_turned(&bytes, at, 0));
    folder.check("x.record").says("unreadable", "; the record was altered");
}

#[test]
fn compact_records_behind_each_other_are_unreadable() {
    let (folder, bytes) = recorded(20);
    for behind in [bytes.clone(), vec![0], b"\n".to_vec(), b"samples 20\n".to_vec()] {
        folder.write("x.record", [&bytes[..], &behind].concat());
        let expected = format!("x.record: at byte {}: bytes behind the end of the record: expected nothing", bytes.len());
        folder.check("x.record").begins("unreadable", &expected);
    }
    folder.write("x.record", [b"\n", &bytes[..]].concat());
    folder.check("x.record").begins("unreadable", "x.record:2:1: bytes that are no text: expected UTF-8");
}

#[test]
fn a_compact_record_without_the_number_of_samples_is_incomplete() {
    let folder = Folder::with_trial().with("x.txt", good(5).replace("\nsamples 5\n", "\n"));
    assert_eq!(folder.desk("convert x.txt x.record").status, 0);
    folder.check("x.record").begins("incomplete", "the record is cut: it ends after 5 samples without the line `samples`");
}

#[test]
fn a_compact_record_is_read_from_standard_input() {
    let (folder, bytes) = recorded(48);
    super::one(&folder.desk_with_input("check-track -", &bytes)).begins("agrees", "48 samples ");
    let cut = folder.desk_with_input("check-track -", &bytes[..bytes.len() - 9]);
    super::one(&cut).begins("incomplete", "the record is cut: standard input: at byte ");
}
