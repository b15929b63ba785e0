//! The record of a mix: what the mixer did in long runs is what single words do, and the track is checked by it.

use super::{mixing, MIX, THROUGH};
use crate::folder::Folder;
use random::Random;
use std::collections::BTreeSet;

impl Folder {
    /// Mixes with a record and hands it out as a text.
    #[track_caller]
    fn recorded(&self, scripts: &str, sources: &str) -> String {
        let ran = self.desk(&format!("mix {scripts} --in {sources} --out track.wav --record track.record"));
        assert_eq!(ran.status, 0, "{ran:?}");
        assert_eq!(self.desk("convert track.record track.txt").status, 0);
        self.text("track.txt")
    }

    /// Plays a record as a script, which must hold.
    #[track_caller]
    fn plays(&self, text: &str) {
        self.write("played.txt", text);
        self.desk("run --quiet played.txt").is_done("");
    }
}

/// Every run word by word: a word in waits until the last of its run takes it, and none is sent before the last of the run before an `out`.
fn word_by_word(record: &str, sent_early: bool) -> String {
    let lines: Vec<&str> = record.lines().collect();
    let mut text = String::new();
    for (at, line) in lines.iter().enumerate() {
        let Some(words) = line.strip_prefix("run ") else {
            text.push_str(&format!("{line}\n"));
            continue;
        };
        let is_last = lines.get(at + 1) == Some(&"out");
        let (flag, during, behind) = if is_last && !sent_early { ("SORQ", 0, 1) } else { ("SIACK", 1, 0) };
        for word in 1..=words.parse::<u32>().expect("a number of words") {
            let expected = if word.to_string() == words { behind } else { during };
            text.push_str(&format!("run 1\nexpect {flag} {expected}\n"));
        }
    }
    text
}

/// The numbers of words in the runs of a record.
fn runs(record: &str) -> BTreeSet<u32> {
    record.lines().filter_map(|line| line.strip_prefix("run ")?.parse().ok()).collect()
}

/// Loud noise, so that a sum of it is clipped now and then.
fn loud(seed: u64, length: usize) -> Vec<i16> {
    let mut random = Random::new(seed);
    (0..length).map(|_| random.word() as i16).collect()
}

#[test]
fn a_mix_that_clips_now_and_then_is_what_single_words_do() {
    let folder = mixing().with("loud.desk", "ram 0: 7FFFH 7000H 6000H\n");
    for (seed, name) in (1..).zip(["booth.wav", "floor.wav", "relay.wav"]) {
        folder.write_sound(name, 48000, &loud(seed, 600));
    }
    let record = folder.recorded("mixing.desk loud.desk", "booth.wav floor.wav relay.wav");
    let clipped = folder.sound("track.wav").samples.iter().filter(|sample| matches!(**sample, i16::MAX | i16::MIN)).count();
    assert!((100..500).contains(&clipped), "{clipped} samples are clipped");
    assert!(runs(&record).len() > 2, "{:?}", runs(&record));
    folder.plays(&record);
    folder.plays(&word_by_word(&record, false));
}

/// The first sample of a turn says how long the program counts before it takes the second, and the second how long before it sends.
const COUNTS: &str = "\
program 000H: 4B4000H 0000B1H  # JNSIAK 000H; MOV @A,SIM
program 002H: 000013H 6003E2H  # MOV @TR,A; LDI @B,001FH
program 004H: 090020H 048000H  # MOV @NON,B AND ACCA,IDB; INC ACCA
program 006H: 040000H 488060H  # DEC ACCA; JNZA 006H
program 008H: 4B4080H 0000B1H  # JNSIAK 008H; MOV @A,SIM
program 00AH: 090020H 048000H  # MOV @NON,B AND ACCA,IDB; INC ACCA
program 00CH: 040000H 4880C0H  # DEC ACCA; JNZA 00CH
program 00EH: 000039H 500000H  # MOV @SOM,TR; JMP 000H
";

#[test]
fn a_program_that_counts_by_its_samples_is_what_single_words_do() {
    let folder = Folder::new().with("counts.desk", COUNTS);
    let (first, second) = (loud(5, 500), loud(6, 500));
    folder.write_sound("a.wav", 48000, &first);
    folder.write_sound("b.wav", 48000, &second);
    let record = folder.recorded("counts.desk", "a.wav b.wav");
    assert_eq!(folder.sound("track.wav").samples, first);
    assert!(runs(&record).len() > 50, "{:?}", runs(&record));
    folder.plays(&record);
    folder.plays(&word_by_word(&record, false));
}

/// Long stretches of equal runs with a longer or a shorter one between them.
#[test]
fn a_run_of_another_length_now_and_then_is_what_single_words_do() {
    let folder = Folder::new().with("counts.desk", COUNTS);
    let mut random = Random::new(9);
    let mut samples = |usual: i16| (0..500).map(|_| if random.one_in(12) { random.word() as i16 } else { usual }).collect::<Vec<i16>>();
    folder.write_sound("a.wav", 48000, &samples(7));
    folder.write_sound("b.wav", 48000, &samples(20));
    let record = folder.recorded("counts.desk", "a.wav b.wav");
    folder.plays(&record);
    folder.plays(&word_by_word(&record, false));
}

/// JNSIAK 000H; MOV @A,SIM; MOV @SOM,A; JNSIAK 003H; MOV @B,SIM; JMP 000H: the first source is sent before the second is taken.
#[test]
fn a_program_that_sends_before_it_takes_the_last_source_mixes() {
    let folder = mixing().with("early.desk", "program 0: 4B4000H 0000B1H 000019H 4B4030H 0000B2H 500000H\n");
    let record = folder.recorded("early.desk", "booth.wav floor.wav");
    assert_eq!(folder.sound("track.wav"), folder.sound("booth.wav"));
    assert!(!record.contains("sent 03E8H\nrun") && record.contains("out\nsent 03E8H\nin FC18H\n"), "{record}");
    folder.plays(&record);
    folder.plays(&word_by_word(&record, true));
    assert_eq!(folder.desk("check-track track.record").status, 0);
}

/// JNSIAK 000H; MOV @A,SIM; MOV @B,SIM; MOV @SOM,B; JMP 000H: the second word is taken without waiting for it.
#[test]
fn a_program_that_does_not_wait_for_its_second_word_is_given_it_in_time() {
    let folder = mixing().with("hasty.desk", "program 0: 4B4000H 0000B1H 0000B2H 000029H 500000H\n");
    let record = folder.recorded("hasty.desk", "booth.wav floor.wav");
    assert_eq!(folder.sound("track.wav"), folder.sound("floor.wav"));
    folder.plays(&word_by_word(&record, false));
}

#[test]
fn a_record_says_rate_sources_program_and_number_of_samples() {
    let folder = mixing();
    folder.write("the \"floor\" #1.wav", folder.read("floor.wav"));
    let words = "mix|mixing.desk|preset.desk|--in|booth.wav|./the \"floor\" #1.wav|relay.wav|--out|t.wav|--record|t";
    assert_eq!(folder.desk_of(&words.split('|').collect::<Vec<&str>>()).status, 0);
    let text = folder.desk("convert t -").printed;
    assert!(text.starts_with("rate 8000\nsources booth \"the 'floor' #1\" relay\nprogram 000H: 09B010H\n"), "{text}");
    assert!(text.contains("\nram 002H: 2D6AH\nin 03E8H\nrun ") && text.ends_with("\nsent 1FFFH\nsamples 3\n"), "{text}");
}

#[test]
fn a_record_agrees_with_the_track() {
    let folder = mixing();
    assert_eq!(folder.desk(&format!("{MIX} --record track.record")).status, 0);
    folder.desk("check-track track.record").is_done(
        "track.record: agrees: 3 samples (0:00:00.000), all as the chip sends them\n\
         1 track: agrees 1, differs 0, incomplete 0, unreadable 0\n",
    );
}

/// What a script gives and sends before the first sample is in the record too, and none of it is missing there.
#[test]
fn a_record_of_a_mix_with_events_at_its_start_agrees() {
    let folder = mixing();
    folder.write("delay.desk", "program 0: 4B4000H 000019H 0000B1H 500000H\nset B 7\nin 1\nrun 4\nout\npatch ram 5: 1\n");
    let record = folder.recorded("delay.desk", "floor.wav");
    folder.plays(&record);
    let checked = folder.desk("check-track track.record");
    assert_eq!((checked.status, checked.told.as_str()), (0, ""), "{checked:?}");
}

#[test]
fn a_record_of_no_samples_is_written_and_said_to_be_incomplete() {
    let folder = Folder::new().with("through.desk", THROUGH);
    folder.write_sound("a.wav", 8000, &[]);
    assert!(folder.recorded("through.desk", "a.wav").ends_with("\nsamples 0\n"));
    let ran = folder.desk("check-track track.record");
    assert!(ran.status == 1 && ran.printed.starts_with("track.record: incomplete: no word was sent: "), "{ran:?}");
}
