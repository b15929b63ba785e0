//! Several tracks in one call: their order, their lengths, and all verdicts at once.

use super::trial::{good, line_of_sample, mix_of_channels, with_sent};
use super::{judged, tally};
use crate::folder::{hexadecimal, Folder};
use random::Random;

#[test]
fn twelve_tracks_and_one_changed_word() {
    let folder = Folder::with_trial();
    let names: Vec<String> = (1..=12).map(|track| format!("track-{track:02}.record")).collect();
    let record = good(500);
    names.iter().for_each(|name| folder.write(name, &record));
    let chip = mix_of_channels(250);
    folder.write("track-07.record", with_sent(&record, 250, chip ^ 1));
    let checked = folder.check_all(&names.join(" "));
    for (track, name) in checked.iter().zip(&names) {
        assert_eq!(&track.name, name);
        if name != "track-07.record" {
            track.is("agrees", "500 samples (0:00:00.010), all as the chip sends them");
            continue;
        }
        let (desk, chip, line) = (hexadecimal(chip ^ 1), hexadecimal(chip), line_of_sample(&record, 250));
        let first = format!("at 0:00:00.005 (sample 250) the desk sent {desk}, the chip sends {chip} ({name}:{line}:1); ");
        track.begins("differs", &format!("{first}1 of 500 samples differs, by 1 step at most (-90.3 dB)"));
    }
}

#[test]
fn two_good_tracks_are_counted() {
    let folder = Folder::with_trial().with("a", good(3)).with("b", good(3));
    let ran = folder.desk("check-track a b");
    let line = "agrees: 3 samples (0:00:00.000), all as the chip sends them\n";
    ran.is_done(&format!("a: {line}b: {line}2 tracks: agrees 2, differs 0, incomplete 0, unreadable 0\n"));
}

#[test]
fn tracks_of_unequal_lengths_are_incomplete_but_for_the_longest() {
    let folder = Folder::with_trial().with("long", good(9)).with("short", good(8)).with("other", good(9));
    let checked = folder.check_all("short long other");
    checked[0].says("incomplete", " of the same call has 9; the 8 samples ");
    assert!(checked[1..].iter().all(|track| track.verdict == "agrees"), "{checked:?}");
    folder.check_all("long short")[1].begins("incomplete", "8 samples: long of the same call has 9; the 8 samples ");
}

/// Half as many samples at half the rate last as long.
#[test]
fn lengths_are_compared_as_times() {
    let slow = good(10).replace("rate 48000", "rate 24000");
    let folder = Folder::with_trial().with("fast", good(20)).with("slow", &slow).with("brief", good(19));
    let verdicts: Vec<String> = folder.check_all("fast slow brief").into_iter().map(|track| track.verdict).collect();
    assert_eq!(verdicts, ["agrees", "agrees", "incomplete"]);
}

/// Nothing tells how long a track without a rate lasts.
#[test]
fn lengths_are_compared_as_samples_where_a_rate_is_not_known() {
    let unknown = good(10).replace("rate 48000\n", "");
    let folder = Folder::with_trial().with("known", good(20)).with("unknown", &unknown).with("same", good(10));
    let verdicts = |names: &str| folder.check_all(names).into_iter().map(|track| track.verdict).collect::<Vec<String>>();
    assert_eq!(verdicts("known unknown"), ["agrees", "incomplete"]);
    assert_eq!(verdicts("unknown same"), ["agrees", "agrees"]);
}

/// A track that is cut says by itself how long it should be.
#[test]
fn a_cut_track_does_not_hide_that_another_is_short() {
    let cut = good(20).replace(&format!("sent {}\n", hexadecimal(mix_of_channels(19))), "");
    let folder = Folder::with_trial().with("cut", cut).with("short", good(15)).with("shorter", good(10));
    let checked = folder.check_all("cut short shorter");
    assert!(checked.iter().all(|track| track.verdict == "incomplete"), "{checked:?}");
}

#[test]
fn a_track_that_differs_is_that_whatever_its_length() {
    let folder = Folder::with_trial().with("long", good(9)).with("wrong", with_sent(&good(5), 2, 0x0123));
    let checked = folder.check_all("long wrong");
    checked[0].begins("agrees", "9 samples ");
    checked[1].says("differs", "; 5 samples: long of the same call has 9");
}

#[test]
fn an_unreadable_track_does_not_stop_the_others() {
    let folder = Folder::with_trial().with("one", good(48)).with("two", "include missing.desk\n");
    folder.write("three", with_sent(&good(48), 0, 0x0123));
    let checked = folder.check_all("one two three");
    checked[0].begins("agrees", "48 samples ");
    checked[1].begins("unreadable", "two:1:9: missing.desk: cannot read: ");
    checked[2].begins("differs", "at 0:00:00.000 (sample 0) the desk sent 0123H, ");
}

#[test]
fn all_four_verdicts_are_counted_in_one_call() {
    let folder = Folder::with_trial();
    folder.write("good", good(6));
    folder.write("wrong", with_sent(&good(6), 3, 0x0123));
    folder.write("cut", good(6).replace("samples 6\n", ""));
    folder.write("bad", "dance\n");
    let ran = folder.desk("check-track cut good bad wrong good none");
    let verdicts: Vec<String> = judged(&ran).into_iter().map(|track| track.verdict).collect();
    assert_eq!(verdicts, ["incomplete", "agrees", "unreadable", "differs", "agrees", "unreadable"]);
    assert_eq!(ran.printed.lines().last(), Some(tally([2, 1, 1, 2]).as_str()));
    assert_eq!((ran.status, ran.told.as_str()), (2, "desk: 4 of 6 tracks do not agree with the chip\n"));
    assert_eq!(folder.desk("check-track cut good wrong").status, 1);
    assert_eq!(folder.desk("check-track good good").status, 0);
}

#[test]
fn damaged_records_are_answered() {
    const PIECES: [&str; 25] = [
        "program 0: 000019H",
        "program 511: 0FFFFFFFFH",
        "rom 0: 65535",
        "ram 127: 1",
        "set PC 65535",
        "set DEPTH 255",
        "set DP 200",
        "set SORQ 1",
        "run 65535",
        "run 65536",
        "run 4294967295",
        "in 70000",
        "write 256",
        "read",
        "status",
        "out",
        "out\nsent 0",
        "interrupt",
        "reset",
        "event 5 1\nsent 9",
        "event 4294967295 4294967295",
        "sent 65536",
        "show",
        "samples 1",
        "include damaged-00.record",
    ];
    let folder = Folder::new();
    let mut random = Random::new(7720);
    for at in 0..30 {
        let lines = (0..=random.below(12)).map(|_| random.pick(&PIECES));
        let mut bytes = lines.collect::<Vec<&str>>().join("\n").into_bytes();
        if random.one_in(3) {
            let at = random.place(bytes.len());
            bytes[at] = random.next() as u8;
        }
        folder.write(&format!("damaged-{at:02}.record"), bytes);
    }
    for at in 0..30 {
        folder.check(&format!("damaged-{at:02}.record"));
    }
}
