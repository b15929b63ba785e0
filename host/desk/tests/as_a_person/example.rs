//! `desk example` as a person uses it.

use crate::folder::Folder;

#[test]
fn the_example_reports_and_leaves_its_files() {
    let folder = Folder::new();
    for _ in 0..2 {
        let ran = folder.desk("example deep/sound");
        assert_eq!((ran.status, ran.told.as_str()), (0, ""));
        let (printed, lines) = (&ran.printed, ran.printed.lines().collect::<Vec<&str>>());
        assert_eq!(lines.len(), 8, "{printed}");
        assert!(lines[0].starts_with("deep/sound/track.wav: 16000 samples, 0:00:02.000 at 8000 Hz, 0 clipped, peak "), "{printed}");
        let tones = [("booth", 440, "4000H"), ("floor", 1000, "2000H"), ("relay", 2600, "2D6AH")];
        for (line, (file, hertz, gain)) in lines[2..5].iter().zip(tones) {
            let words: Vec<&str> = line.split_whitespace().collect();
            assert_eq!(words[..4], [format!("{file}.wav"), hertz.to_string(), "Hz".into(), gain.into()], "{printed}");
            assert_eq!(words[7], words[9], "the level expected and the level found: {printed}");
        }
        assert!(lines[5].ends_with("; the bound is 98301/32768"), "{printed}");
        assert_eq!(lines[6..], ["clipped samples: 0 of 16000", "the track is what exact arithmetic allows"]);
    }
}

#[test]
fn what_the_example_leaves_is_mixed_and_checked_again() {
    let folder = Folder::new();
    assert_eq!(folder.desk("example .").status, 0);
    assert_eq!(folder.names(), ["booth.wav", "floor.wav", "mixing.desk", "preset.desk", "relay.wav", "track.record", "track.wav"]);
    let mix = "mix mixing.desk preset.desk --in booth.wav floor.wav relay.wav --out again.wav --record again.record";
    assert_eq!(folder.desk(mix).status, 0);
    assert!(folder.read("again.wav") == folder.read("track.wav") && folder.read("again.record") == folder.read("track.record"));
    let sounds = "--program mixing.desk preset.desk --in booth.wav floor.wav relay.wav --sent track.wav";
    let checked = folder.desk(&format!("check-track track.record {sounds}"));
    let line = "agrees: 16000 samples (0:00:02.000), all as the chip sends them\n";
    checked.is_done(&format!("track.record: {line}track.wav: {line}2 tracks: agrees 2, differs 0, incomplete 0, unreadable 0\n"));
}

#[test]
fn the_example_wants_one_folder() {
    let folder = Folder::new().with("file", "");
    for line in ["example", "example one two"] {
        folder.desk(line).is_refused(2, "one folder: expected `desk example FOLDER`");
    }
    folder.desk("example --fast").is_refused(2, "\"--fast\" is no option: expected `desk example FOLDER`");
    let ran = folder.desk("example file");
    assert!(ran.status == 2 && ran.told.starts_with("desk: file: cannot make the folder: "), "{ran:?}");
    assert_eq!(folder.names(), ["file"]);
}
