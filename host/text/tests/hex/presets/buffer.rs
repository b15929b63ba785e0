//! "The writer fills a lent text buffer"

use text::{write_preset, Writing};

use super::zeros;

/// "A buffer shorter than the text [..]: refusal 1 and no byte written"
#[test]
fn a_shorter_one_is_refused_and_stays_as_lent() {
    for length in 0..716 {
        let mut text = vec![b'?'; length];
        assert_eq!(write_preset(&[0; 128], &mut text), Writing { number: 1, length: 0 });
        assert_eq!(text, vec![b'?'; length]);
    }
}

/// "716 characters"
#[test]
fn one_of_the_texts_length_is_filled() {
    let mut text = [b'?'; 716];
    assert_eq!(write_preset(&[0; 128], &mut text), Writing { number: 0, length: 716 });
    assert_eq!(text.as_slice(), zeros::text());
}

/// "bytes past the text stay as lent; the reply says the length"
#[test]
fn a_longer_one_keeps_what_stands_behind() {
    for longer in [1, 2, 12, 43, 44, 45, 716, 5000] {
        let behind: Vec<u8> = (0..longer).map(|n| (n * 7 + 1) as u8).collect();
        let mut text = [vec![b'?'; 716], behind.clone()].concat();
        assert_eq!(write_preset(&[0; 128], &mut text), Writing { number: 0, length: 716 });
        assert_eq!(text, [zeros::text(), behind].concat());
    }
}

#[test]
fn what_stood_in_it_is_not_looked_at() {
    for lent in [0, b'\n', b':', b'0', 0xFF] {
        let mut text = [lent; 716];
        write_preset(&[0; 128], &mut text);
        assert_eq!(text.as_slice(), zeros::text());
    }
}
