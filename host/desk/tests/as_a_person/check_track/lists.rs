//! Lists of tracks.

use super::sounds::evening;
use super::trial::{good, with_sent};
use crate::folder::Folder;

/// A folder with a list in it that is bad.
#[track_caller]
fn is_bad(list: &str, told: &str) {
    Folder::new().with("evening.tracks", list).desk("check-track --tracks evening.tracks").is_refused(2, told);
}

#[test]
fn a_list_has_records_and_sounds_and_names_in_quotes() {
    let folder = evening();
    let record = "mix mixing.desk preset.desk --in booth.wav floor.wav relay.wav --out again.wav --record english.record";
    assert_eq!(folder.desk(record).status, 0);
    let list = "# The sitting\n\
                track English record english.record\n\n\
                TRACK \"Channel 2, French\" PROGRAM mixing.desk preset.desk IN booth.wav floor.wav relay.wav SENT track.wav  # a comment\n";
    folder.write("evening.tracks", format!("\u{feff}{}", list.replace('\n', "\r\n")));
    let checked = folder.check_all("--tracks evening.tracks");
    assert_eq!([checked[0].name.as_str(), checked[1].name.as_str()], ["English", "Channel 2, French"]);
    checked.iter().for_each(|track| track.is("agrees", "2000 samples (0:00:00.250), all as the chip sends them"));
}

#[test]
fn paths_are_relative_to_the_list() {
    let folder = Folder::with_trial();
    let (channels, preset) = (folder.read("channels.desk"), folder.read("preset.desk"));
    let folder = folder.with("sitting/day 1/channels.desk", channels).with("sitting/day 1/preset.desk", preset);
    folder.write("sitting/day 1/a.record", good(5));
    folder.write("sitting/day 1/b.record", with_sent(&good(5), 4, 0x0123));
    folder.write("sitting/tracks", "track A record \"day 1/a.record\"\ntrack B record \"day 1/b.record\"\n");
    let checked = folder.check_all("--tracks sitting/tracks");
    checked[0].begins("agrees", "5 samples ");
    checked[1].says("differs", "(sitting/day 1/b.record:");
    let absolute = format!("track A record \"{}\"\n", folder.0.join("sitting/day 1/a.record").display());
    folder.write("other/tracks", absolute);
    folder.check("--tracks other/tracks").begins("agrees", "5 samples ");
}

#[test]
fn records_may_stand_beside_a_list() {
    let folder = Folder::with_trial().with("a.record", good(5)).with("b.record", good(5)).with("tracks", "track B record b.record\n");
    let checked = folder.check_all("a.record --tracks tracks");
    assert_eq!(checked.iter().map(|track| track.name.as_str()).collect::<Vec<&str>>(), ["a.record", "B"]);
}

#[test]
fn a_bad_line_is_told_with_line_and_column() {
    let form = "`track NAME record FILE` or `track NAME program FILE .. [data FILE] [preset FILE] in WAV .. sent WAV`";
    is_bad("\n  English record x\n", &format!("evening.tracks:2:3: \"English\": expected {form}"));
    is_bad("track\n", "evening.tracks:1:6: the line ends: expected the name of the track");
    is_bad("track E\n", "evening.tracks:1:8: the line ends: expected `record` or `program`");
    is_bad("track E x.record\n", "evening.tracks:1:9: \"x.record\": expected `record` or `program`");
    is_bad("track E record\n", "evening.tracks:1:15: the line ends: expected the file of the record");
    is_bad("track E record x y\n", "evening.tracks:1:18: \"y\": expected the end of the line");
    is_bad("track E record x\ntrack F record y\n track E record z\n", "evening.tracks:3:8: \"E\": expected each name once");
    is_bad("track \"E record x\n", "evening.tracks:1:7: a quote that does not end on its line: expected another");
}

#[test]
fn a_bad_line_of_sounds_is_told_with_line_and_column() {
    is_bad("track E program in a.wav sent b.wav\n", "evening.tracks:1:17: \"in\": expected a file before it");
    is_bad("track E program p in sent b.wav\n", "evening.tracks:1:22: \"sent\": expected a file before it");
    is_bad("track E program p in a.wav\n", "evening.tracks:1:27: the line ends: expected a file, or `sent`");
    is_bad("track E program p\n", "evening.tracks:1:18: the line ends: expected a file, or `data` or `preset` or `in`");
    is_bad("track E program data d in a.wav sent b.wav\n", "evening.tracks:1:17: \"data\": expected a file before it");
    is_bad("track E program p data\n", "evening.tracks:1:23: the line ends: expected the image of the data ROM");
    is_bad("track E program p data - in a.wav sent b.wav\n", "evening.tracks:1:24: \"-\": expected a file");
    is_bad("track E program p data d\n", "evening.tracks:1:25: the line ends: expected `preset` or `in`");
    is_bad("track E program p data d e in a.wav sent b.wav\n", "evening.tracks:1:26: \"e\": expected `preset` or `in`");
    is_bad("track E program p preset\n", "evening.tracks:1:25: the line ends: expected the preset");
    is_bad("track E program p preset - in a.wav sent b.wav\n", "evening.tracks:1:26: \"-\": expected a file");
    is_bad("track E program p preset m preset m in a sent b\n", "evening.tracks:1:28: \"preset\": expected `data` or `in`");
    is_bad("track E program p preset m data d data d in a sent b\n", "evening.tracks:1:35: \"data\": expected `in`");
    is_bad("track E program p in a.wav sent\n", "evening.tracks:1:32: the line ends: expected the sound that was sent");
    is_bad("track E program p in a.wav sent b.wav c.wav\n", "evening.tracks:1:39: \"c.wav\": expected the end of the line");
    let many = "a.wav ".repeat(17);
    is_bad(&format!("track E program p in {many}sent b.wav\n"), "evening.tracks:1:124: \"sent\": expected at most 16 sources before it");
}

#[test]
fn a_list_without_a_track_or_of_no_text_is_bad() {
    is_bad("", "evening.tracks: no track: expected a line for each");
    is_bad("# nobody spoke\n\n", "evening.tracks: no track: expected a line for each");
    let folder = Folder::new().with("tracks", b"track \xff record x\n");
    folder.desk("check-track --tracks tracks").is_refused(2, "tracks: bytes that are no text: expected UTF-8");
    let missing = folder.desk("check-track --tracks none");
    assert!(missing.status == 2 && missing.told.starts_with("desk: none: cannot read: "), "{missing:?}");
    folder.write("tracks", "#".repeat((1 << 20) + 1));
    folder.desk("check-track --tracks tracks").is_refused(2, "tracks: more than 1048576 bytes: expected a list of tracks");
}

#[test]
fn a_file_of_a_list_that_is_not_there_is_unreadable() {
    let folder = Folder::with_trial().with("a.record", good(5)).with("tracks", "track A record a.record\ntrack B record none\n");
    let checked = folder.check_all("--tracks tracks");
    checked[0].begins("agrees", "5 samples ");
    checked[1].begins("unreadable", "none: cannot read: ");
}
