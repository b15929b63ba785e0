//! What is said of a record that is all there.

use super::trial::{good, line_of_sample, mix_of_channels, with_sent};
use crate::folder::{hexadecimal, Folder};
use std::time::{Duration, Instant};

#[test]
fn a_changed_word_is_found_at_every_sample() {
    let folder = Folder::with_trial();
    let record = good(9);
    for sample in 0..9 {
        let chip = mix_of_channels(sample);
        let checked = folder.check_text(&with_sent(&record, sample, chip ^ 1));
        let (desk, chip, line) = (hexadecimal(chip ^ 1), hexadecimal(chip), line_of_sample(&record, sample));
        let first = format!("at 0:00:00.000 (sample {sample}) the desk sent {desk}, the chip sends {chip} (x.record:{line}:1); ");
        checked.begins("differs", &format!("{first}1 of 9 samples differs, by 1 step at most (-90.3 dB)"));
    }
}

#[test]
fn the_samples_that_differ_and_the_largest_error_are_counted() {
    let folder = Folder::with_trial();
    let record = with_sent(&good(30), 5, mix_of_channels(5) ^ 1);
    let record = with_sent(&with_sent(&record, 20, mix_of_channels(20) ^ 0x100), 29, mix_of_channels(29) ^ 2);
    folder.check_text(&record).says("differs", "; 3 of 30 samples differ, by 256 steps at most (-42.1 dB)");
}

#[test]
fn without_a_rate_the_sample_alone_tells_when() {
    let folder = Folder::with_trial();
    let record = good(5).replace("rate 48000\n", "");
    folder.check_text(&record).is("agrees", "5 samples, all as the chip sends them");
    folder.check_text(&with_sent(&record, 3, 0)).begins("differs", "at sample 3 the desk sent 0000H, the chip sends ");
    folder
        .check_text(&with_sent(&with_sent(&record, 3, 0), 4, 0))
        .begins("differs", "from sample 3 on; at the first of these samples the desk sent 0000H, ");
}

/// LDI sends 1234H to SOL at 000H and to SOM at 001H.
const SOL_THEN_SOM: &str = "program 0: 624688H 624689H\n";

#[test]
fn what_sol_sends_is_reversed() {
    let folder = Folder::new();
    folder.check_text(&format!("{SOL_THEN_SOM}run 1\nout\nsent 2C48H\nsamples 1\n")).is("agrees", "1 sample, as the chip sends it");
    let differs = "1 of 1 sample differs, by 6676 steps at most (-13.8 dB)";
    let expected = &format!("at sample 0 the desk sent 1234H, the chip sends 2C48H (x.record:4:1); {differs}");
    folder.check_text(&format!("{SOL_THEN_SOM}run 1\nout\nsent 1234H\nsamples 1\n")).is("differs", expected);
}

#[test]
fn the_last_word_that_stored_so_is_sent() {
    let folder = Folder::new();
    folder.check_text(&format!("{SOL_THEN_SOM}run 2\nrun 9\nout\nsent 1234H\nsamples 1\n")).is("agrees", "1 sample, as the chip sends it");
}

#[test]
fn an_out_that_the_chip_refuses_is_a_difference() {
    let record = format!("{SOL_THEN_SOM}run 1\nout\nsent 2C48H\nout\nsent 2C48H\nsamples 2\n");
    let expected = "at sample 1 the desk sent 2C48H, the chip sends nothing (refusal 10, serial out with SORQ 0) (x.record:6:1); ";
    Folder::new().check_text(&record).begins("differs", expected);
    let silent = format!("{SOL_THEN_SOM}out\nsent 0\nsamples 1\n");
    Folder::new().check_text(&silent).begins("differs", "at sample 0 the desk sent 0000H, the chip sends nothing (refusal 10, ");
}

#[test]
fn a_record_may_set_sorq_itself() {
    let folder = Folder::new();
    folder.check_text("set SO 5\nset SORQ 1\nout\nsent 5\nsamples 1\n").is("agrees", "1 sample, as the chip sends it");
    let other = folder.check_text("set SO 5\nset SORQ 1\nout\nsent 6\nsamples 1\n");
    other.begins("differs", "at sample 0 the desk sent 0006H, the chip sends 0005H");
}

#[test]
fn a_line_of_an_included_file_names_the_file() {
    let folder = Folder::new().with("turn.desk", "out\n  sent 1\n");
    folder.check_text(&format!("{SOL_THEN_SOM}run 1\ninclude turn.desk\nsamples 1\n")).says("differs", " (turn.desk:2:3); ");
}

#[test]
fn sent_without_out_is_unreadable() {
    let folder = Folder::new();
    folder.check_text("  sent 1\nsamples 1\n").is("unreadable", "x.record:1:3: `sent`: expected an `out` before it");
    for (before, line, event) in [("run 1\n", 2, "run 1"), ("set SORQ 1\nout\nsent 0\nin 5\n", 5, "in 0005H")] {
        let expected = format!("x.record:{line}:1: `sent` after `{event}`: expected an `out` before it");
        folder.check_text(&format!("{before}sent 1\nsamples 1\n")).begins("unreadable", &expected);
    }
}

#[test]
fn a_bad_statement_is_unreadable_with_its_place() {
    let folder = Folder::with_trial();
    let record = good(3).replace("sent", "send");
    let line = line_of_sample(&good(3), 0);
    let expected = format!("x.record:{line}:1: \"send\": expected a statement, perhaps \"sent\"");
    folder.check_text(&record).begins("unreadable", &expected);
    let missing = folder.check_text("include missing.desk\nout\nsent 1\nsamples 1\n");
    missing.begins("unreadable", "x.record:1:9: missing.desk: cannot read: ");
    folder.check_text("run 1\nrate 8000\nout\n\nsamples x\n").begins("unreadable", "x.record:5:9: \"x\": expected ");
}

#[test]
fn a_record_that_is_not_there_or_no_file_is_unreadable() {
    let folder = Folder::new().with("inside/x", "");
    folder.check("missing.record").begins("unreadable", "missing.record: cannot read: ");
    folder.check("inside").begins("unreadable", "inside: cannot read: ");
}

#[test]
fn a_rate_behind_a_sample_is_unreadable() {
    let record = format!("rate 8000\n{SOL_THEN_SOM}run 1\nout\nsent 2C48H\nrate 16000\nsamples 1\n");
    Folder::new().check_text(&record).begins("unreadable", "x.record:6:1: `rate`: expected once, before the first sample");
}

#[test]
fn an_address_that_is_given_twice_is_unreadable() {
    let record = format!("{SOL_THEN_SOM}{SOL_THEN_SOM}run 1\nout\nsent 2C48H\nsamples 1\n");
    let expected = "x.record:2:1: program 000H was given before, at x.record:1:1: expected each once, or `patch program`";
    Folder::new().check_text(&record).is("unreadable", expected);
    let patched = format!("{SOL_THEN_SOM}patch {SOL_THEN_SOM}run 1\nout\nsent 2C48H\nsamples 1\n");
    Folder::new().check_text(&patched).is("agrees", "1 sample, as the chip sends it");
}

#[test]
fn capitals_a_byte_order_mark_and_windows_line_ends_are_read() {
    let folder = Folder::with_trial();
    let record = good(4);
    folder.check_text(&format!("\u{feff}{}", record.replace('\n', "\r\n"))).begins("agrees", "4 samples ");
    folder.check_text(&record.replace("sent", "SENT").replace("run", "Run").replace("samples", "SAMPLES")).begins("agrees", "4 samples ");
}

#[test]
fn a_record_is_read_from_standard_input() {
    let folder = Folder::with_trial();
    let ran = folder.desk_with_input("check-track -", good(4).as_bytes());
    super::one(&ran).is("agrees", "4 samples (0:00:00.000), all as the chip sends them");
    let ran = folder.desk_with_input("check-track -", with_sent(&good(4), 1, 0).as_bytes());
    let checked = super::one(&ran);
    assert_eq!(checked.name, "-");
    checked.says("differs", &format!(" (standard input:{}:1); ", line_of_sample(&good(4), 1)));
}

/// The words before a difference are looked at once more, but not each of a million.
#[test]
fn a_difference_behind_long_runs_is_told_as_soon_as_none() {
    let record = |sent: &str| format!("set SO 5\nset SORQ 1\n{}out\nsent {sent}\nsamples 1\n", "run 65535\n".repeat(20));
    let folder = Folder::new();
    let checked = |record: &str| {
        let start = Instant::now();
        (folder.check_text(record).verdict, start.elapsed())
    };
    let ((agrees, usual), (differs, longer)) = (checked(&record("5")), checked(&record("6")));
    assert_eq!([agrees, differs], ["agrees", "differs"]);
    assert!(longer < 10 * usual + Duration::from_secs(1), "{usual:?} without a difference, {longer:?} with one");
}

#[test]
fn no_progress_without_a_terminal() {
    let folder = Folder::with_trial();
    folder.check_text(&good(5000)).is("agrees", "5000 samples (0:00:00.104), all as the chip sends them");
}

#[test]
fn one_out_has_one_sent() {
    let text = format!("{SOL_THEN_SOM}run 1\nout\nsent 2C48H\nsent 2C48H\nsamples 2\n");
    Folder::new().check_text(&text).begins("unreadable", "x.record:5:1: `sent` a second time: expected one for each `out`");
    let folder = Folder::new().with("x.record", &text);
    assert_eq!(folder.desk("convert x.record compact").status, 0);
    folder.check("compact").begins("unreadable", "compact: statement 5: `sent` a second time: expected one for each `out`");
    folder.desk("run --quiet x.record").is_refused(2, "x.record:5:1: `sent` a second time: expected one for each `out`");
}

#[test]
fn registers_that_the_record_sets_within_the_track_are_told() {
    let text = format!("{SOL_THEN_SOM}run 1\nout\nsent 2C48H\nset SO 1234H\nset SORQ 1\nout\nsent 1234H\nsamples 2\n");
    let expected = "2 samples, all as the chip sends them; the record sets registers or memory within the track, 2 times";
    Folder::new().check_text(&text).is("agrees", expected);
}
