//! The options of `desk check-track`: which tracks, the time of day, the report.

use super::sounds::{evening, CHECK};
use super::trial::{good, with_sent};
use crate::folder::{ended, Folder};

const USE: &str = "expected `desk check-track RECORD..`, or `--program FILE.. [--data FILE] [--preset FILE] --in WAV.. --sent WAV`, \
                   or `--tracks LIST`";

#[test]
fn bad_use_says_what_was_expected() {
    let folder = Folder::with_trial().with("good.record", good(3));
    let many = "a.wav ".repeat(17);
    let cases = [
        ("", "no track"),
        ("good.record --quick", "\"--quick\" is no option"),
        ("--program", "--program: expected the scripts or the image of the program"),
        ("--data", "--data: expected an Intel HEX file"),
        ("--data -", "--data -: expected a file"),
        ("--data a --data b", "--data a second time"),
        ("--preset -", "--preset -: expected a file"),
        ("--preset a --preset b", "--preset a second time"),
        ("--preset a", "--program, --in and --sent: expected all three"),
        ("--data a", "--program, --in and --sent: expected all three"),
        ("good.record --data a --in b --sent c", "--program, --in and --sent: expected all three"),
        ("--program a --in", "--in: expected the sounds of the sources"),
        ("--program a --in b", "--program, --in and --sent: expected all three"),
        ("--in b --sent c", "--program, --in and --sent: expected all three"),
        ("--program a --in b --sent", "--sent: expected the sound that was sent"),
        ("--program a --in b --sent c --sent d", "--sent a second time"),
        ("--program a --program b --in b --sent c", "--program a second time"),
        (&format!("--program a --sent c --in {many}"), "--in with 17 files: expected 1 to 16 sources"),
        ("--tracks", "--tracks: expected the list of tracks"),
        ("--tracks a --tracks b", "--tracks a second time"),
        ("good.record --report", "--report: expected the file of the report"),
        ("good.record --report -", "--report -: expected a file, since the verdicts go to standard output"),
        ("good.record --report a --report b", "--report a second time"),
        ("- -", "- a second time: standard input can be read once"),
        ("- --program a --in b --sent -", "- a second time: standard input can be read once"),
        ("--program a --in - --sent -", "- a second time: standard input can be read once"),
        ("good.record --start", "--start: expected the time of day of the first sample, as 14:30:00"),
    ];
    for (arguments, told) in cases {
        folder.desk(&format!("check-track {arguments}")).is_refused(2, &format!("{told}: {USE}"));
    }
}

#[test]
fn a_start_makes_times_of_day() {
    let folder = Folder::with_trial().with("x.record", with_sent(&good(480), 479, 0x0123));
    folder.check("x.record").begins("differs", "at 0:00:00.009 (sample 479) ");
    folder.check("x.record --start 14:30").begins("differs", "at 14:30:00.009 (sample 479) ");
    folder.check("--start 9:05:07 x.record").begins("differs", "at 09:05:07.009 (sample 479) ");
    folder.check("x.record --start 23:59:59").begins("differs", "at 23:59:59.009 (sample 479) ");
    for text in ["24:00", "12", "12:60", "noon", "1:2:3:4"] {
        let told = format!("--start {text:?}: expected a time of day, as 14:30:00: {USE}");
        folder.desk(&format!("check-track x.record --start {text}")).is_refused(2, &told);
    }
}

/// One second before midnight and two seconds of sound.
#[test]
fn times_of_day_go_on_behind_midnight() {
    let record = with_sent(&good(480), 400, 0x0123).replace("rate 48000", "rate 240");
    Folder::with_trial().with("x.record", record).check("x.record --start 23:59:59").begins("differs", "at 00:00:00.666 (sample 400) ");
}

#[test]
fn a_report_is_written_beside_the_verdict() {
    let folder = Folder::with_trial().with("x.record", with_sent(&good(48), 7, 0x0123));
    folder.check("x.record --report page.html").begins("differs", "at 0:00:00.000 (sample 7) ");
    assert_eq!(folder.names(), ["channels.desk", "page.html", "preset.desk", "x.record"]);
}

#[test]
fn a_report_never_replaces_a_file_that_is_read() {
    let folder = evening().with("include.desk", "include preset.desk\n").with("tracks", "track A record a.record\n");
    assert_eq!(folder.desk("mix mixing.desk preset.desk --in booth.wav floor.wav relay.wav --out track.wav --record a.record").status, 0);
    std::fs::hard_link(folder.0.join("a.record"), folder.0.join("hard")).expect("a hard link");
    std::os::unix::fs::symlink("booth.wav", folder.0.join("link")).expect("a link");
    let sounds = CHECK.replace("preset.desk", "include.desk");
    let cases = [
        ("a.record", "./a.record"),
        ("a.record", "hard"),
        ("--tracks tracks", "tracks"),
        ("--tracks tracks", "a.record"),
        (&sounds, "booth.wav"),
        (&sounds, "link"),
        (&sounds, "track.wav"),
        (&sounds, "include.desk"),
        (&sounds, "preset.desk"),
    ];
    for (tracks, report) in cases {
        let before = folder.read(report);
        let ran = folder.desk(&format!("check-track {tracks} --report {report}"));
        assert_eq!(ran.status, 2, "{tracks} {report}: {ran:?}");
        assert!(ran.told.starts_with(&format!("desk: {report}: would replace ")), "{ran:?}");
        assert!(ran.told.ends_with(", which is read: expected another file\n"), "{ran:?}");
        assert!(folder.read(report) == before, "{report} is as it was");
    }
}

/// That a script is included is known only after the check: whatever its verdict is, it is told that there is no page.
#[test]
fn a_report_that_is_not_written_is_told_beside_the_verdict() {
    let folder = Folder::with_trial().with("x.record", with_sent(&good(3), 1, 0x0123));
    let ran = folder.desk("check-track x.record --report preset.desk");
    assert_ne!(ran.status, 0);
    assert!(ran.printed.starts_with("x.record: differs: "), "{ran:?}");
    assert!(ran.told.contains("preset.desk: would replace preset.desk, which is read: expected another file"), "{ran:?}");
}

#[test]
fn a_report_that_cannot_be_written_is_told() {
    let folder = Folder::with_trial().with("x.record", good(3));
    let ran = folder.desk("check-track x.record --report none/page.html");
    assert!(ran.status == 2 && ran.told.starts_with("desk: none/page.html: cannot write: "), "{ran:?}");
    assert_eq!(ran.printed, "", "it is told before the check");
}

#[cfg(target_os = "linux")]
#[test]
fn a_full_disk_keeps_neither_the_verdict_nor_the_report_back() {
    let folder = Folder::with_trial().with("x.record", good(3).replace("samples 3", "samples 4"));
    let full = std::fs::OpenOptions::new().write(true).open("/dev/full").expect("a full device");
    let ran = ended(folder.command(&["check-track", "x.record", "--report", "page.html"]).stdout(full).spawn().expect("desk runs"));
    assert!(ran.status == 1 && ran.told.starts_with("desk: standard output: cannot write: "), "{ran:?}");
    assert!(ran.told.ends_with("\ndesk: the track does not agree with the chip\n"), "{ran:?}");
    assert!(String::from_utf8_lossy(&folder.read("page.html")).contains("incomplete"));
}

#[cfg(target_os = "linux")]
#[test]
fn a_full_disk_is_never_status_0() {
    let folder = Folder::with_trial().with("x.record", good(3));
    let full = std::fs::OpenOptions::new().write(true).open("/dev/full").expect("a full device");
    let ran = ended(folder.command(&["check-track", "x.record"]).stdout(full).spawn().expect("desk runs"));
    assert_eq!(ran.status, 2, "{ran:?}");
    assert!(ran.told.starts_with("desk: standard output: cannot write: "), "{ran:?}");
}
