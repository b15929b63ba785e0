//! The examples of the repository, and that none of their expectations is there for show.

use crate::folder::{examples, Folder};
use desk::chip::device::Device;
use desk::chip::registers::named;
use desk::fault::Fault;
use desk::scripts::player::Player;
use desk::scripts::reader::read_text;
use std::fs;
use std::path::Path;

#[test]
fn every_bench_case_and_the_biquad_succeed() {
    let cases = (1..=10).map(|case| format!("bench/case-{case:02}.desk"));
    for name in cases.chain(["biquad.desk".to_string()]) {
        let path = examples().join(&name);
        let ran = Folder::new().desk_of(&["run", path.to_str().expect("text")]);
        assert_eq!((ran.status, ran.told.as_str()), (0, ""), "{name}");
        assert!(!ran.printed.is_empty(), "{name}");
    }
}

#[test]
fn word_0_marks_pc_only() {
    let path = examples().join("bench/case-01.desk");
    let ran = Folder::new().desk_of(&["run", path.to_str().expect("text")]);
    let after = ran.printed.split_once("run 1: 0 done, 1 word\n").expect("a run of one word").1;
    assert!(after.starts_with("PC 081H* "), "{after}");
    assert_eq!(after.matches('*').count(), 1, "{after}");
}

/// An example whose every `expect`, `reply` and `sent` is made wrong, one at a time.
#[test]
fn every_expectation_of_the_examples_is_held() {
    for name in ["bench/case-02.desk", "bench/case-04.desk", "bench/case-09.desk", "bench/case-10.desk", "biquad.desk"] {
        let text = fs::read_to_string(examples().join(name)).expect("an example");
        for (at, line) in text.lines().enumerate() {
            let Some(wrong) = made_wrong(line) else { continue };
            let mut changed: Vec<&str> = text.lines().collect();
            changed[at] = &wrong;
            let told = played(&changed.join("\n")).expect_err("an expectation that does not hold").to_string();
            assert!(told.starts_with(&format!("x:{}:1: expected ", at + 1)), "{name}: {wrong}: {told}");
        }
    }
}

/// Plays a text as `desk run` does.
fn played(text: &str) -> Result<(), Fault> {
    let mut player = Player::new();
    read_text(Path::new("x"), text.as_bytes())?.iter().try_for_each(|statement| player.play(statement).map(|_| ()))?;
    player.settle()
}

/// Makes each expectation of a script wrong, one at a time, in a script beside it.
#[track_caller]
pub fn every_expectation_is_held(folder: &Folder, script: &str) {
    let text = folder.text(script);
    let lines: Vec<&str> = text.lines().collect();
    let wrong = Path::new(script).with_file_name("wrong.desk").display().to_string();
    for (at, line) in lines.iter().enumerate().filter_map(|(at, line)| Some((at, made_wrong(line)?))) {
        let mut changed = lines.clone();
        changed[at] = &line;
        folder.write(&wrong, changed.join("\n"));
        let ran = folder.desk(&format!("run --quiet {wrong}"));
        assert!(ran.status == 1 && ran.told.starts_with(&format!("desk: {wrong}:{}:1: expected ", at + 1)), "{line}: {ran:?}");
    }
}

/// An expectation with another number at its end.
fn made_wrong(line: &str) -> Option<String> {
    let mut words: Vec<&str> = line.split('#').next()?.split_whitespace().collect();
    if !matches!(words.first(), Some(&"expect" | &"reply" | &"sent")) {
        return None;
    }
    let last = words.pop()?;
    let flag = words.get(1).is_some_and(|name| named(Device::Upd77c25, name).is_some_and(|register| register.largest == 1));
    words.push(if flag { ["1", "0"][usize::from(last == "1")] } else { "99" });
    Some(words.join(" "))
}
