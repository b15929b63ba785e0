//! Records from which something was lost: never does one of them agree.

use super::trial::{good, line_of_sample};
use crate::folder::Folder;

const SAMPLES: usize = 4;

/// A record without some of its lines, counted from 1.
fn without(record: &str, lost: &[usize]) -> String {
    record.lines().zip(1..).filter(|(_, line)| !lost.contains(line)).map(|(line, _)| format!("{line}\n")).collect()
}

#[test]
fn a_sent_that_is_lost_makes_the_record_incomplete() {
    let folder = Folder::with_trial();
    let record = good(SAMPLES);
    for sample in [0, 2, SAMPLES - 1] {
        let line = line_of_sample(&record, sample);
        let expected = format!("x.record:{}:1: the `out` has no `sent` behind it; the 3 samples ", line - 1);
        folder.check_text(&without(&record, &[line])).begins("incomplete", &expected);
    }
}

#[test]
fn an_out_that_is_lost_makes_the_record_unreadable() {
    let folder = Folder::with_trial();
    let record = good(SAMPLES);
    for sample in [0, 2, SAMPLES - 1] {
        let line = line_of_sample(&record, sample);
        let expected = format!("x.record:{}:1: `sent` after `run 24`: expected an `out` before it", line - 1);
        folder.check_text(&without(&record, &[line - 1])).begins("unreadable", &expected);
    }
}

#[test]
fn an_out_and_its_sent_that_are_lost_make_the_record_incomplete() {
    let folder = Folder::with_trial();
    let record = good(SAMPLES);
    for sample in [0, 2, SAMPLES - 1] {
        let line = line_of_sample(&record, sample);
        folder.check_text(&without(&record, &[line - 1, line])).says("incomplete", "the record has 3 samples of the 4 that it ends with");
    }
}

/// All of a turn with its words in, so that what is left is a run of the chip without a fault.
#[test]
fn a_turn_that_is_lost_makes_the_record_incomplete() {
    let folder = Folder::with_trial();
    let record = good(SAMPLES);
    for sample in 0..SAMPLES {
        let line = line_of_sample(&record, sample);
        let turn: Vec<usize> = (line - 9..=line).collect();
        folder.check_text(&without(&record, &turn)).says("incomplete", "the record has 3 samples of the 4 that it ends with");
    }
}

#[test]
fn a_record_without_any_one_of_its_statements_never_agrees() {
    let folder = Folder::with_trial();
    let record = good(3);
    let statements = record.lines().zip(1..).filter(|(line, _)| !line.is_empty() && !line.starts_with('#'));
    let needed = statements.filter(|(line, _)| !line.starts_with("rate") && !line.starts_with("sources"));
    let checked = folder.check_each(needed.map(|(_, line)| without(&record, &[line])));
    assert_eq!(checked.len(), 2 + 3 * 10 + 1);
    assert!(checked.iter().all(|track| track.verdict != "agrees"), "{checked:?}");
}

#[test]
fn a_record_that_is_cut_behind_any_line_is_incomplete() {
    let folder = Folder::with_trial();
    let record = good(SAMPLES);
    let lines: Vec<&str> = record.lines().collect();
    let cuts: Vec<String> = (0..lines.len()).map(|end| lines[..end].join("\n")).collect();
    for (cut, checked) in cuts.iter().zip(folder.check_each(&cuts)) {
        let whole = cut.matches("\nsent ").count();
        let expected = match cut.ends_with("\nout") {
            true => "the `out` has no `sent` behind it".to_string(),
            false => format!("the record is cut: it ends after {whole} samples without the line `samples`"),
        };
        checked.says("incomplete", &expected);
    }
    folder.check_text(&lines.join("\n")).begins("agrees", "4 samples ");
}

#[test]
fn a_record_that_is_cut_is_never_status_0_alone() {
    let folder = Folder::with_trial();
    let record = good(SAMPLES);
    let lines: Vec<&str> = record.lines().collect();
    for end in (0..lines.len()).step_by(7).chain([lines.len() - 1]) {
        folder.write("x.record", lines[..end].join("\n"));
        assert_eq!(folder.desk("check-track x.record").status, 1);
    }
}

#[test]
fn a_record_that_is_cut_within_its_last_lines_never_agrees() {
    let folder = Folder::with_trial();
    let record = good(12);
    let whole = record.trim_end().len();
    let checked = folder.check_each((whole - 60..whole).map(|end| &record[..end]));
    assert!(checked.iter().all(|track| track.verdict != "agrees"), "{checked:?}");
    folder.check_text(&record[..whole]).begins("agrees", "12 samples ");
}

#[test]
fn another_number_of_samples_makes_the_record_incomplete() {
    let folder = Folder::with_trial();
    let record = good(SAMPLES);
    let line = record.lines().count();
    for said in ["3", "5", "0", "4294967300", "18446744073709551615", "40H"] {
        let number = if said == "40H" { "64" } else { said };
        let checked = folder.check_text(&record.replace("samples 4", &format!("samples {said}")));
        checked.begins("incomplete", &format!("x.record:{line}:1: the record has 4 samples of the {number} that it ends with; "));
    }
    folder.check_text(&record.replace("samples 4", "samples 4H")).begins("agrees", "4 samples ");
}

#[test]
fn text_behind_the_number_of_samples_makes_the_record_unreadable() {
    let folder = Folder::with_trial();
    let record = good(SAMPLES);
    let line = record.lines().count();
    for behind in ["run 1", "samples 4", "out\nsent 1", "show", "include preset.desk", "dance"] {
        let checked = folder.check_text(&format!("{record}{behind}\n"));
        checked.begins("unreadable", &format!("x.record:{}:1: ", line + 1));
    }
    folder.check_text(&format!("{record}\n# the end of the sitting\n")).begins("agrees", "4 samples ");
}

#[test]
fn a_doubled_record_is_unreadable() {
    let folder = Folder::with_trial();
    let record = good(SAMPLES);
    let line = record.lines().count();
    let expected = format!("a statement: expected nothing after the `samples` at x.record:{line}:1");
    folder.check_text(&record.repeat(2)).says("unreadable", &expected);
    folder.write("x.record", record);
    super::one(&folder.shell("cat x.record x.record | desk check-track -")).begins("unreadable", "standard input:");
}

/// As a disk leaves a file that it could not finish.
#[test]
fn a_record_with_zeros_at_its_end_never_agrees() {
    let folder = Folder::with_trial();
    let record = good(SAMPLES);
    for (kept, zeros) in [(record.len(), 1), (record.len(), 512), (record.len(), 100_000), (record.len() - 100, 100), (0, 512)] {
        folder.write("x.record", [&record.as_bytes()[..kept], &vec![0; zeros]].concat());
        let checked = folder.check("x.record");
        assert!(matches!(checked.verdict.as_str(), "incomplete" | "unreadable"), "{checked:?}");
    }
}

#[test]
fn a_record_in_which_nothing_was_sent_is_incomplete() {
    let folder = Folder::new();
    for text in ["", "# nothing\n", "run 1\n", "\u{feff}"] {
        folder.check_text(text).is("incomplete", "the record is cut: it ends after 0 samples without the line `samples`");
    }
    folder.check_text("run 1\nsamples 0\n").is("incomplete", "no word was sent: there is nothing to check");
}
