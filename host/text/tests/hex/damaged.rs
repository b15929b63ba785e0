//! Texts with one damage: none panics, a refused image is not touched, and an accepted one is the undamaged text's.

use random::Random;
use text::{read_record, Outcome, ReadRecord};

use crate::{lent, writer, zeros};

const TEXTS: usize = 100;
const DAMAGES: usize = 100;

#[test]
fn a_damaged_program_is_refused_or_the_same() {
    let mut random = Random::new(1);
    for _ in 0..TEXTS {
        let good = any_text(&mut random, 2048);
        let image = lent::program(&good);
        for _ in 0..DAMAGES {
            let text = damaged(&mut random, &good);
            judge(&text, lent::program_outcome(&text), || lent::program(&text) == image);
        }
    }
}

#[test]
fn a_damaged_data_rom_is_refused_or_the_same() {
    let mut random = Random::new(2);
    for _ in 0..TEXTS {
        let good = any_text(&mut random, 1024);
        let image = lent::data(&good);
        for _ in 0..DAMAGES {
            let text = damaged(&mut random, &good);
            judge(&text, lent::data_outcome(&text), || lent::data(&text) == image);
        }
    }
}

/// Cut short by its ending alone or by more, a text is never accepted.
#[test]
fn a_text_cut_anywhere_is_refused() {
    let good = zeros::text(&zeros::data());
    for length in 0..good.len() {
        let (number, line) = lent::data_outcome(&good[..length]);
        let feeds = good[..length].iter().filter(|byte| **byte == b'\n').count();
        let at_a_line_end = length == 0 || good[length - 1] == b'\n';
        let expected = match (at_a_line_end, feeds) {
            (true, 8) => (16, 8),
            (true, feeds) => (15, feeds),
            (false, feeds) => (12, feeds + 1),
        };
        assert_eq!((number, line), expected);
    }
}

#[test]
fn bytes_at_random_are_refused() {
    let mut random = Random::new(3);
    let characters = b":0123456789ABCDEFabcdef\r\n\n\nxg \0\xFF";
    for _ in 0..20_000 {
        let length = random.place(60);
        let text: Vec<u8> = (0..length).map(|_| random.pick(characters)).collect();
        judge(&text, lent::data_outcome(&text), || false);
        judge(&text, lent::program_outcome(&text), || false);
        let read = read_record(&text);
        assert!(read.number == 0 || read == ReadRecord { number: read.number, kind: 0, address: 0, bytes: 0, data: 0..0 });
        assert!(matches!(read.number, 0 | 12 | 13 | 14));
        assert!(read.data.end <= text.len());
    }
}

fn judge(text: &[u8], outcome: (u8, usize), same: impl Fn() -> bool) {
    let (number, line) = outcome;
    let feeds = text.iter().filter(|byte| **byte == b'\n').count();
    let lines = feeds + usize::from(text.last().is_some_and(|byte| *byte != b'\n'));
    assert!(line <= lines && (line > 0 || text.is_empty()), "{:?} of {lines} lines", Outcome { number, line });
    match number {
        0 => assert!(same(), "accepted as something else"),
        12..=16 => (),
        _ => panic!("refusal {number}"),
    }
}

/// A good text of bytes at random: records of any length in any order, either ending, capitals or small letters.
pub fn any_text(random: &mut Random, size: usize) -> Vec<u8> {
    let bytes: Vec<u8> = (0..size).map(|_| random.word() as u8).collect();
    let longest = random.pick(&[16, 32, 255]);
    let mut lines = Vec::new();
    let mut from = 0;
    while from < size {
        let to = size.min(from + random.place(longest + 1));
        lines.push(writer::record(0, from as u16, &bytes[from..to]));
        from = to;
    }
    for place in 1..lines.len() {
        lines.swap(place, random.place(place + 1));
    }
    lines.push(writer::record(1, random.word(), &[]));
    let small = random.flag();
    let ended = lines.iter().map(|line| format!("{line}{}", random.pick(&["\n", "\r\n"])));
    let text: String = ended.collect();
    if small { text.to_lowercase() } else { text }.into_bytes()
}

/// One damage to a byte or a line.
pub fn damaged(random: &mut Random, good: &[u8]) -> Vec<u8> {
    let characters = b"0123456789ABCDEFabcdef:\r\n xg\0\xFF";
    let mut text = good.to_vec();
    let place = random.place(text.len());
    let mut lines: Vec<&[u8]> = good.split_inclusive(|byte| *byte == b'\n').collect();
    let (one, other) = (random.place(lines.len()), random.place(lines.len()));
    match random.below(8) {
        0 => text[place] = random.pick(characters),
        1 => text[place] ^= 1 << random.below(8),
        2 => text.insert(place, random.pick(characters)),
        3 => drop(text.remove(place)),
        4 => text.truncate(place),
        _ => {
            match random.below(3) {
                0 => drop(lines.remove(one)),
                1 => lines.insert(one, lines[other]),
                _ => lines.swap(one, other),
            }
            text = lines.concat();
        }
    }
    text
}
