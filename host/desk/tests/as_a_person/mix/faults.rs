//! Bad use, bad files and programs that do not mix: each is told, and nothing is left behind.

use super::{mixing, MIX};

const USE: &str = "expected `desk mix [--program FILE] [--data FILE] [--preset FILE] SCRIPT.. --in WAV.. --out WAV [--record FILE]`; \
                   see `desk help mix`";

#[test]
fn bad_use_is_told() {
    let folder = mixing();
    let before = folder.names();
    let many = "booth.wav ".repeat(17);
    let cases = [
        ("", "no script: expected one or more before --in, or --program"),
        ("--in booth.wav --out track.wav", "no script: expected one or more before --in, or --program"),
        ("--data data.hex --in booth.wav --out track.wav", "no script: expected one or more before --in, or --program"),
        ("mixing.desk --out track.wav", "no --in: expected the files of the sources"),
        ("mixing.desk --in --out track.wav", "--in with 0 files: expected 1 to 16 sources"),
        ("mixing.desk --in booth.wav", "no --out: expected the file of the track"),
        ("mixing.desk --in booth.wav --out", "--out: expected the file of the track"),
        ("mixing.desk --in booth.wav --out track.wav --record", "--record: expected the file of the record"),
        ("mixing.desk --in booth.wav --out track.wav --record -", "--record -: expected a file"),
        ("mixing.desk --in booth.wav --in floor.wav --out track.wav", "--in a second time"),
        ("mixing.desk --in booth.wav --out track.wav --out other.wav", "--out a second time"),
        ("mixing.desk --in booth.wav --out track.wav --record a --record b", "--record a second time"),
        ("mixing.desk --in booth.wav --out track.wav --fast", "\"--fast\" is no option"),
        ("mixing.desk --in - floor.wav - --out track.wav", "- a second time: standard input can be read once"),
        (&format!("mixing.desk --in {many}--out track.wav"), "--in with 17 files: expected 1 to 16 sources"),
    ];
    for (arguments, told) in cases {
        folder.desk(&format!("mix {arguments}")).is_refused(2, &format!("{told}: {USE}"));
    }
    assert_eq!(folder.names(), before);
}

#[test]
fn bad_sounds_are_told() {
    let folder = mixing();
    let good = folder.read("booth.wav");
    let with = |at: usize, byte: u8| {
        let mut bytes = good.clone();
        bytes[at] = byte;
        bytes
    };
    folder.write("stereo.wav", with(22, 2));
    folder.write("eight.wav", with(34, 8));
    folder.write("float.wav", with(20, 3));
    folder.write("cut.wav", &good[..47]);
    folder.write("long.wav", [&good[..], b"x"].concat());
    folder.write_sound("fast.wav", 16000, &[0]);
    folder.write("text.wav", "no sound at all");
    let before = folder.names();
    let convert = |name: &str| format!("convert it by: sox {name}.wav -b 16 -e signed-integer -c 1 {name}-16.wav");
    let cases = [
        ("stereo.wav", format!("stereo.wav: at byte 22: 2 channels: expected 1 (mono); {}", convert("stereo"))),
        ("eight.wav", format!("eight.wav: at byte 34: 8 bits a sample: expected 16; {}", convert("eight"))),
        ("float.wav", format!("float.wav: at byte 20: format 3: expected 1 (PCM); {}", convert("float"))),
        ("cut.wav", "cut.wav: at byte 47: the file ends: expected 50 bytes, as its header says".to_string()),
        ("long.wav", "long.wav: at byte 50: the file goes on: expected 50 bytes, as its header says".to_string()),
        ("text.wav", "text.wav: at byte 0: \"no s\": expected \"RIFF\"".to_string()),
        ("fast.wav", "booth.wav: 8000 Hz, and fast.wav: 16000 Hz: expected one rate".to_string()),
    ];
    for (file, told) in cases {
        folder.desk(&MIX.replace("relay.wav", file)).is_refused(2, &told);
    }
    assert_eq!(folder.names(), before);
}

#[test]
fn files_that_cannot_be_read_or_written_are_told() {
    let folder = mixing();
    let before = folder.names();
    for (name, file) in [("mixing.desk", "none.desk"), ("relay.wav", "none.wav")] {
        let ran = folder.desk(&MIX.replace(name, file));
        assert!((ran.status, ran.printed.as_str()) == (2, "") && ran.told.starts_with(&format!("desk: {file}: cannot read: ")), "{ran:?}");
    }
    for arguments in ["--out none/track.wav", "--out track.wav --record none/track.record"] {
        let ran = folder.desk(&MIX.replace("--out track.wav", arguments));
        assert!(ran.status == 2 && ran.told.starts_with("desk: none/track.") && ran.told.contains(": cannot write: "), "{ran:?}");
    }
    assert_eq!(folder.names(), before);
}

#[test]
fn statements_that_check_or_print_are_bad_in_a_mix() {
    let folder = mixing();
    for text in ["reply 0", "sent 0", "expect A 0", "expect ram 0 0", "show", "rate 8000", "sources booth", "samples 0"] {
        folder.write("checks.desk", format!("run 0\n  {text}\n"));
        let name = text.split(' ').next().expect("a name");
        let expected = "expected only chip, program, data, rom, ram, preset, patch, set, include and events in a script for a mix";
        let told = format!("checks.desk:2:3: {name:?}: {expected}");
        folder.desk("mix mixing.desk checks.desk --in booth.wav --out track.wav").is_refused(2, &told);
    }
    folder.write("wrong.desk", "ram 0: 4000H x\n");
    let told = "wrong.desk:1:14: \"x\": expected a number up to FFFFH (numbers are written 1234H or 4660)";
    folder.desk("mix mixing.desk wrong.desk --in booth.wav --out track.wav").is_refused(2, told);
}

#[test]
fn a_mix_that_fails_leaves_the_old_track_and_record() {
    let folder = mixing();
    folder.write("track.wav", "the old track");
    folder.write("track.record", "the old record");
    folder.write_sound("fourth.wav", 8000, &[1, 2, 3, 4]);
    folder.write("deaf.desk", "patch program 0: 500000H\n");
    folder.write("refused.desk", "patch program 008H: 000001H\n");
    folder.write("wide.desk", "set PC 0FFFFH\n");
    folder.write("early.desk", "ram 0: 1\n out\n");
    let before = folder.names();
    let three = "booth.wav floor.wav relay.wav";
    let cases = [
        ("deaf.desk", three, "sample 0, booth.wav: the program has not taken a sample within 65535 words; PC is 000H"),
        ("refused.desk", three, "sample 0, relay.wav: refusal 6 at PC 008H: SRC none where the bus is used"),
        (
            "wide.desk",
            three,
            "sample 0, booth.wav: refusal 2 at PC FFFFH: a register is too wide, the depth over 4, or SR bits 6 to 2 not 0",
        ),
        (
            "",
            "booth.wav floor.wav relay.wav fourth.wav",
            "sample 3, fourth.wav: the program sends a second word at PC 00FH: expected one for each sample of all sources",
        ),
        ("early.desk", three, "early.desk:2:2: `out` is refused: refusal 10, serial out with SORQ 0; no `reply` expects it"),
    ];
    for (script, sources, told) in cases {
        folder.desk(&format!("mix mixing.desk {script} --in {sources} --out track.wav --record track.record")).is_refused(1, told);
    }
    assert_eq!(folder.names(), before);
    assert_eq!((folder.text("track.wav").as_str(), folder.text("track.record").as_str()), ("the old track", "the old record"));
}

/// A program for three sources waits for the third and never sends.
#[test]
fn a_program_that_takes_more_words_than_there_are_sources_is_told() {
    let folder = mixing();
    let told = "sample 0, after the last source: the program has not sent a sample within 65535 words; PC is 009H";
    folder.desk("mix mixing.desk --in booth.wav floor.wav --out track.wav").is_refused(1, told);
}

/// JNSIAK 000H; MOV @A,SIM; MOV @SOM,A; MOV @SOM,A; JMP 000H: two words are sent for one, and the third turn would lose one.
#[test]
fn a_program_that_sends_two_words_for_a_sample_is_told() {
    let folder = mixing().with("double.desk", "program 0: 4B4000H 0000B1H 000019H 000019H 500000H\n");
    let told = "sample 2, booth.wav: the program sends a second word at PC 003H: expected one for each sample of all sources";
    folder.desk("mix double.desk --in booth.wav --out track.wav").is_refused(1, told);
}

/// JNSIAK 000H; MOV @A,SIM; MOV @NON,A OR ACCA,IDB; MOV @SOM,A; JNSA0 006H; MOV @SOM,A; JMP 000H: a sample below 0 is sent twice. From the
/// first of them on the program is a word behind; at the second a word would be lost within a run of the usual length.
#[test]
fn a_second_word_within_a_run_of_the_usual_length_is_told() {
    let folder = mixing().with("now_and_then.desk", "program 0: 4B4000H 0000B1H 088010H 000019H 4A0060H 000019H 500000H\n");
    folder.write_sound("a.wav", 8000, &[1, 2, 3, -4, 5, 6, 7, 8, -9, 10, 11, 12]);
    let told = "sample 9, a.wav: the program sends a second word at PC 005H: expected one for each sample of all sources";
    folder.desk("mix now_and_then.desk --in a.wav --out track.wav").is_refused(1, told);
}
