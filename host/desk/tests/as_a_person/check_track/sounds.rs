//! Tracks as sound files: sources, program and preset on one side, the sound that was sent on the other.

use crate::folder::Folder;
use desk::sound::wav::{self, Sound};
use random::Random;

pub const LENGTH: usize = 2000;
pub const CHECK: &str = "--program mixing.desk preset.desk --in booth.wav floor.wav relay.wav --sent track.wav";

/// Noise that is its own for every seed.
pub fn noise(seed: u64, length: usize) -> Vec<i16> {
    let mut random = Random::new(seed);
    (0..length).map(|_| random.within(9000) as i16).collect()
}

/// A folder with the mixing program, its preset, three sources and the track that the chip sends.
pub fn evening() -> Folder {
    let folder = Folder::new();
    folder.copy_example("mixing/mixing.desk");
    folder.copy_example("mixing/preset.desk");
    for (seed, name) in ["booth.wav", "floor.wav", "relay.wav"].into_iter().enumerate() {
        folder.write_sound(name, 8000, &noise(seed as u64, LENGTH));
    }
    let mixed = folder.desk("mix mixing.desk preset.desk --in booth.wav floor.wav relay.wav --out track.wav");
    assert_eq!((mixed.status, mixed.told.as_str()), (0, ""));
    folder
}

impl Folder {
    /// Writes the track with other samples.
    fn resend(&self, change: impl FnOnce(&mut Vec<i16>)) {
        let mut sound = self.sound("track.wav");
        change(&mut sound.samples);
        self.write("track.wav", wav::bytes(&sound));
    }
}

#[test]
fn what_the_chip_sends_agrees() {
    let folder = evening();
    let checked = folder.check(CHECK);
    assert_eq!(checked.name, "track.wav");
    checked.is("agrees", "2000 samples (0:00:00.250), all as the chip sends them");
}

#[test]
fn one_sample_that_is_another_differs() {
    for (sample, time) in [(0, "0:00:00.000"), (1000, "0:00:00.125"), (LENGTH - 1, "0:00:00.249")] {
        let folder = evening();
        let chip = folder.sound("track.wav").samples[sample];
        folder.resend(|samples| samples[sample] ^= 1);
        let first = format!("at {time} (sample {sample}) the desk sent {:04X}H, the chip sends {chip:04X}H; ", chip ^ 1);
        folder.check(CHECK).begins("differs", &format!("{first}1 of 2000 samples differs, by 1 step at most (-90.3 dB)"));
    }
}

#[test]
fn a_track_that_is_one_sample_too_short_is_incomplete() {
    let folder = evening();
    folder.resend(|samples| samples.truncate(LENGTH - 1));
    folder.check(CHECK).begins("incomplete", "track.wav ends after 1999 samples: the sources have 2000; the 1999 samples ");
}

#[test]
fn a_track_that_is_one_sample_too_long_is_incomplete() {
    let folder = evening();
    folder.resend(|samples| samples.push(0));
    folder.check(CHECK).begins("incomplete", "track.wav goes on to 2001 samples: the sources have 2000; the 2000 samples ");
}

#[test]
fn a_track_that_lost_its_first_sample_differs() {
    let folder = evening();
    folder.resend(|samples| {
        samples.remove(0);
    });
    let checked = folder.check(CHECK);
    checked.begins("differs", "from 0:00:00.000 (sample 0) on; at the first of these samples the desk sent ");
    checked.says("differs", "; track.wav ends after 1999 samples: the sources have 2000");
}

#[test]
fn sounds_without_a_sample_are_incomplete() {
    let folder = evening();
    for name in ["booth.wav", "floor.wav", "relay.wav", "track.wav"] {
        folder.write_sound(name, 8000, &[]);
    }
    folder.check(CHECK).begins("incomplete", "no word was sent: there is nothing to check");
}

#[test]
fn an_odd_byte_at_the_end_never_agrees() {
    for name in ["track.wav", "booth.wav"] {
        let folder = evening();
        let file = folder.read(name);
        folder.write(name, [&file[..], &[0]].concat());
        let expected = format!("{name}: at byte 4044: the file goes on: expected 4044 bytes, as its header says");
        folder.check(CHECK).begins("unreadable", &expected);
        // A header that counts the odd byte.
        let mut odd = [&file[..], &[0]].concat();
        odd[4..8].copy_from_slice(&4037u32.to_le_bytes());
        odd[40..44].copy_from_slice(&4001u32.to_le_bytes());
        folder.write(name, odd);
        let expected = format!("{name}: at byte 40: `data` has 4001 bytes: expected an even number, two a sample");
        folder.check(CHECK).begins("incomplete", &expected);
    }
}

#[test]
fn a_header_that_is_cut_is_unreadable() {
    let folder = evening();
    let file = folder.read("track.wav");
    for end in [0, 3, 8, 11, 12, 20, 35, 36, 40, 43] {
        folder.write("track.wav", &file[..end]);
        folder.check(CHECK).begins("unreadable", &format!("track.wav: at byte {end}: the file ends: expected "));
    }
}

#[test]
fn a_sound_that_is_cut_is_incomplete() {
    for name in ["track.wav", "relay.wav"] {
        let folder = evening();
        let file = folder.read(name);
        for end in [44, 45, 1000, 1001, file.len() - 1] {
            folder.write(name, &file[..end]);
            let expected = format!("{name}: at byte {end}: the file ends: expected 4044 bytes, as its header says");
            folder.check(CHECK).begins("incomplete", &expected);
        }
    }
}

#[test]
fn rates_that_differ_are_unreadable() {
    let folder = evening();
    let track = folder.sound("track.wav");
    folder.write("track.wav", wav::bytes(&Sound { rate: 16000, ..track.clone() }));
    folder.check(CHECK).is("unreadable", "booth.wav: 8000 Hz, and track.wav: 16000 Hz: expected one rate");
    folder.write("track.wav", wav::bytes(&track));
    let floor = folder.sound("floor.wav");
    folder.write("floor.wav", wav::bytes(&Sound { rate: 44100, ..floor }));
    folder.check(CHECK).is("unreadable", "booth.wav: 8000 Hz, and floor.wav: 44100 Hz: expected one rate");
}

#[test]
fn a_file_of_24_bits_is_told_with_the_command_that_converts_it() {
    let folder = evening();
    let mut file = folder.read("track.wav");
    file[28..36].copy_from_slice(&[0xc0, 0x5d, 0, 0, 3, 0, 24, 0]);
    folder.write("track.wav", file);
    let expected = "track.wav: at byte 34: 24 bits a sample: expected 16; \
                    convert it by: sox track.wav -b 16 -e signed-integer -c 1 track-16.wav";
    folder.check(CHECK).is("unreadable", expected);
}

#[test]
fn a_file_that_is_not_there_is_unreadable() {
    let folder = evening();
    for name in ["mixing.desk", "relay.wav", "track.wav"] {
        let none = CHECK.replace(name, "none");
        folder.check(&none).begins("unreadable", "none: cannot read: ");
    }
}

/// The size that says that none was known: the track goes on to the end of the file.
#[test]
fn a_track_that_was_streamed_is_as_long_as_a_source_says() {
    let folder = evening();
    let (file, piped) = (folder.read("track.wav"), [0x7fff_f024u32, 0x7fff_f000]);
    for [whole, samples] in [[0, 0], [u32::MAX, u32::MAX], piped] {
        let mut streamed = file.clone();
        streamed[4..8].copy_from_slice(&whole.to_le_bytes());
        streamed[40..44].copy_from_slice(&samples.to_le_bytes());
        folder.write("track.wav", &streamed);
        folder.check(CHECK).is("agrees", "2000 samples (0:00:00.250), all as the chip sends them");
        folder.write("track.wav", &streamed[..1001]);
        folder.check(CHECK).says("incomplete", "track.wav: at byte 1001: the file ends: expected the second byte of a sample");
    }
}

#[test]
fn the_track_or_a_source_is_read_from_standard_input() {
    let folder = evening();
    let track = folder.desk_with_input(&format!("check-track {}", CHECK.replace("track.wav", "-")), &folder.read("track.wav"));
    super::one(&track).begins("agrees", "2000 samples ");
    let floor = folder.desk_with_input(&format!("check-track {}", CHECK.replace("floor.wav", "-")), &folder.read("floor.wav"));
    super::one(&floor).begins("agrees", "2000 samples ");
}

#[test]
fn what_a_person_should_know_of_the_sources_stands_behind_the_verdict() {
    let folder = evening();
    folder.write_sound("relay.wav", 8000, &noise(2, 1000));
    folder.write_sound("floor.wav", 8000, &[0; LENGTH]);
    assert_eq!(folder.desk("mix mixing.desk preset.desk --in booth.wav floor.wav relay.wav --out track.wav").status, 0);
    let expected = "2000 samples (0:00:00.250), all as the chip sends them; floor.wav: silent from beginning to end; \
                    relay.wav: 1000 samples, the longest source has 2000: silence is mixed for the rest";
    folder.check(CHECK).is("agrees", expected);
}

#[test]
fn a_program_that_does_not_begin_is_none_for_these_sources() {
    let folder = evening().with("deaf.desk", "patch program 0: 500000H\n");
    let checked = folder.check(&CHECK.replace("preset.desk", "preset.desk deaf.desk"));
    let expected = "the program does not run with these sources: the program has not taken a sample within 65535 words; PC is 000H";
    checked.is("unreadable", expected);
}

/// Every recorder died: nothing says how long the evening was.
#[test]
fn sounds_of_which_none_states_a_length_are_incomplete() {
    let folder = evening();
    for name in ["booth.wav", "floor.wav", "relay.wav", "track.wav"] {
        let mut streamed = folder.read(name);
        streamed[4..8].copy_from_slice(&0u32.to_le_bytes());
        streamed[40..44].copy_from_slice(&0u32.to_le_bytes());
        folder.write(name, &streamed[..1044]);
    }
    let expected = "no header states a length: whether all of it is there cannot be seen; \
                    the 500 samples that could be compared are as the chip sends them";
    folder.check(CHECK).is("incomplete", expected);
}

#[test]
fn a_script_that_only_checks_is_unreadable() {
    let folder = evening().with("checks.desk", "run 0\nexpect A 0\n");
    let checked = folder.check(&CHECK.replace("preset.desk", "preset.desk checks.desk"));
    checked.begins("unreadable", "checks.desk:2:1: \"expect\": expected only chip, program, data, rom, ram, preset, patch, set, ");
}

/// Every bit of the header and of some samples, each a track of one call, none helped by the length of another.
#[test]
fn a_track_with_any_bit_turned_never_agrees() {
    let folder = Folder::new().with("through.desk", "program 0: 4B4000H 0000B9H 500000H\n");
    folder.write_sound("booth.wav", 8000, &noise(7, 10));
    let file = folder.read("booth.wav");
    let mut list = String::new();
    for bit in 0..file.len() * 8 {
        let mut altered = file.clone();
        altered[bit / 8] ^= 1 << (bit % 8);
        folder.write(&format!("{bit}.wav"), altered);
        list.push_str(&format!("track {bit} program through.desk in booth.wav sent {bit}.wav\n"));
    }
    folder.write("list", list);
    let checked = folder.check_all("--tracks list");
    assert_eq!(checked.len(), 64 * 8);
    for track in checked {
        assert!(track.verdict != "agrees" && !track.sentence.contains("of the same call"), "{track:?}");
    }
}
