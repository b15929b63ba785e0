//! The example in `examples/interrupts`: frames with the two words of an interrupt counted, and without.

use super::examples::every_expectation_is_held;
use crate::folder::{desk_in, repository, Folder};

const SCRIPT: &str = "examples/interrupts/frame_counter.desk";

/// What stands behind the name of a number in a reply that is printed as an object.
fn number(reply: &str, name: &str) -> u32 {
    let (_, behind) = reply.split_once(&format!("\"{name}\":")).expect("a number of that name");
    behind.split([',', '}']).next().and_then(|digits| digits.parse().ok()).expect("digits")
}

/// The words done of each frame, from one sample in to the next: of runs, and of interrupts.
fn frames() -> Vec<(u32, u32)> {
    let ran = desk_in(&repository(), &format!("run --json {SCRIPT}"));
    assert_eq!((ran.status, ran.told.as_str()), (0, ""));
    let mut frames = Vec::new();
    for reply in ran.printed.lines() {
        match (number(reply, "kind"), frames.last_mut()) {
            (4, _) => frames.push((0, 0)),
            (0, Some((runs, _))) => *runs += number(reply, "words"),
            (6, Some((_, interrupts))) => *interrupts += number(reply, "words"),
            _ => {}
        }
    }
    frames
}

#[test]
fn a_frame_has_as_many_words_as_the_example_says() {
    assert_eq!(frames(), [[(10, 2); 4], [(12, 2); 4]].concat());
}

#[test]
fn every_expectation_of_the_example_is_held() {
    let folder = Folder::new();
    folder.copy_example("interrupts/frame_counter.desk");
    every_expectation_is_held(&folder, "frame_counter.desk");
}
