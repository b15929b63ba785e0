//! Whether a text has "the writer's form"

use random::Random;
use text::in_writers_form;

use super::{ram, zeros};
use crate::writer;

fn any_text(random: &mut Random, bytes_per_record: usize) -> Vec<u8> {
    crate::zeros::text(&writer::lines(&ram::bytes(&ram::any(random)), bytes_per_record))
}

#[test]
fn texts_of_sixteen_records_of_sixteen_bytes_have_it() {
    assert!(in_writers_form(&zeros::text()));
    let mut random = Random::new(5);
    assert!((0..500).all(|_| in_writers_form(&any_text(&mut random, 16))));
}

/// One digit more or less is always a wrong check byte: no digit alone can change the sum by 256.
#[test]
fn no_other_character_is_right_anywhere() {
    let mut text = any_text(&mut Random::new(6), 16);
    for (place, character) in (0..text.len()).flat_map(|place| (0..=255).map(move |character| (place, character))) {
        let right = std::mem::replace(&mut text[place], character);
        assert_eq!(in_writers_form(&text), character == right, "{character} at {place}");
        text[place] = right;
    }
}

#[test]
fn one_check_byte_of_256_is_right() {
    for number in 0..16 {
        let line = &zeros::lines()[number];
        let (head, right) = line.split_at(41);
        for check in (0..=255).map(|check| format!("{check:02X}")) {
            assert_eq!(in_writers_form(&zeros::with(number + 1, &format!("{head}{check}"))), check == right);
        }
    }
}

/// The sum of each is right: its address, its type or its length is another.
#[test]
fn another_head_with_a_right_sum_has_it_not() {
    for bytes in [[0x10, 0x01, 0x00, 0x00, 0xEF], [0x10, 0x00, 0x01, 0x00, 0xEF], [0x10, 0x00, 0x00, 0x01, 0xEF], [0x0F, 0, 0, 0, 0xF1]] {
        let [count, high, low, kind, check] = bytes;
        let line = format!(":{count:02X}{high:02X}{low:02X}{kind:02X}{}{check:02X}", "00".repeat(16));
        assert!(!in_writers_form(&zeros::with(1, &line)), "{line}");
    }
}

#[test]
fn small_letters_have_it_not() {
    let text = zeros::with(1, &format!(":10000000AB{}45", "00".repeat(15)));
    assert!(in_writers_form(&text));
    assert!(!in_writers_form(&zeros::with(1, &format!(":10000000aB{}45", "00".repeat(15)))));
    assert!(!in_writers_form(&zeros::with(1, &format!(":10000000{}f0", "00".repeat(16)))));
    assert!(!in_writers_form(&zeros::with(11, &format!(":1000a000{}50", "00".repeat(16)))));
    assert!(!in_writers_form(&zeros::with(17, ":00000001ff")));
}

#[test]
fn carriage_returns_have_it_not() {
    for number in 1..=17 {
        assert!(!in_writers_form(&zeros::with(number, &format!("{}\r", zeros::lines()[number - 1]))));
    }
}

#[test]
fn a_text_cut_anywhere_has_it_not() {
    let text = zeros::text();
    assert!((0..text.len()).all(|length| !in_writers_form(&text[..length])));
    assert!((1..text.len()).all(|from| !in_writers_form(&text[from..])));
}

#[test]
fn anything_before_or_behind_has_it_not() {
    let text = zeros::text();
    for more in [b"\n".as_slice(), b"\r\n", b"\0", b" ", b":00000001FF\n", zeros::lines()[0].as_bytes(), &text] {
        assert!(!in_writers_form(&[&text, more].concat()));
        assert!(!in_writers_form(&[more, &text].concat()));
    }
}

#[test]
fn a_line_more_or_less_or_elsewhere_has_it_not() {
    let lines = zeros::lines();
    for number in 1..=17 {
        assert!(!in_writers_form(&zeros::without(number)));
        assert!(lines.iter().all(|line| !in_writers_form(&zeros::and(number, line))));
        for other in 0..number - 1 {
            let mut swapped = lines.clone();
            swapped.swap(number - 1, other);
            assert!(!in_writers_form(&crate::zeros::text(&swapped)));
        }
    }
}

/// A text that is read all the same: "the end record's address is not looked at".
#[test]
fn another_end_record_has_it_not() {
    let text = zeros::with(17, ":00123401B9");
    assert_eq!(ram::outcome(&text), (0, 17));
    assert!(!in_writers_form(&text));
}

#[test]
fn records_of_another_length_have_it_not() {
    let mut random = Random::new(7);
    for bytes_per_record in (1..=255).filter(|bytes| *bytes != 16) {
        assert!(!in_writers_form(&any_text(&mut random, bytes_per_record)));
    }
}
