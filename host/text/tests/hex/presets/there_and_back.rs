//! What is written read back, and what is read written.

use random::Random;
use text::in_writers_form;

use super::ram;
use super::written::written;
use crate::damaged::{any_text, damaged};

/// "Reading back what was written gives the same cells"
#[test]
fn what_was_written_is_read_back() {
    let mut random = Random::new(8);
    for _ in 0..500 {
        let cells = ram::any(&mut random);
        let text = written(&cells);
        assert!(in_writers_form(&text));
        assert_eq!(ram::outcome(&text), (0, 17));
        assert_eq!(ram::loaded(&text), cells);
    }
}

/// "writing what was read gives the same text whenever it had the writer's form", and another text whenever it had not
#[test]
fn what_was_read_is_written_as_it_was_in_the_writers_form_alone() {
    let mut random = Random::new(9);
    let (mut same, mut other, mut refused) = (0, 0, 0);
    for _ in 0..200 {
        let texts = [written(&ram::any(&mut random)), any_text(&mut random, 256)];
        let damages: Vec<Vec<u8>> = texts.iter().flat_map(|text| [damaged(&mut random, text), damaged(&mut random, text)]).collect();
        for text in texts.into_iter().chain(damages) {
            let accepted = ram::outcome(&text).0 == 0;
            let written_again = accepted && written(&ram::loaded(&text)) == text;
            assert_eq!(in_writers_form(&text), written_again);
            match (accepted, written_again) {
                (true, true) => same += 1,
                (true, false) => other += 1,
                _ => refused += 1,
            }
        }
    }
    assert!(same >= 200 && other >= 200 && refused >= 200, "{same} same, {other} other, {refused} refused");
}
