//! What is mixed: the sources in their order by their gains, as exact arithmetic allows.

use super::{mixing, MIX, THROUGH};
use crate::folder::Folder;
use random::Random;

/// Samples at random, one in four of them at an end of the range.
fn loud(random: &mut Random, length: usize) -> Vec<i16> {
    let mut sample = || match random.below(8) {
        0 => i16::MAX,
        1 => i16::MIN,
        _ => random.word() as i16,
    };
    (0..length).map(|_| sample()).collect()
}

fn exact(samples: [i16; 3], gains: [i16; 3]) -> i64 {
    let sum: i64 = samples.iter().zip(gains).map(|(sample, gain)| i64::from(*sample) * i64::from(gain)).sum();
    sum.clamp(-32768 * 32768, 32767 * 32768)
}

/// Mixes sounds at random by these gains, and counts the samples that were clipped.
fn mixed_within_the_bound(folder: &Folder, random: &mut Random, gains: [i16; 3]) -> usize {
    let sources = [0; 3].map(|_| loud(random, 400));
    folder.write("own.desk", format!("ram 0: {:X}H {:X}H {:X}H", gains[0] as u16, gains[1] as u16, gains[2] as u16));
    for (name, samples) in ["booth.wav", "floor.wav", "relay.wav"].into_iter().zip(&sources) {
        folder.write_sound(name, 44100, samples);
    }
    let ran = folder.desk("mix mixing.desk own.desk --in booth.wav floor.wav relay.wav --out track.wav");
    let track = folder.sound("track.wav");
    assert_eq!((ran.status, track.rate, track.samples.len()), (0, 44100, 400));
    for (at, sent) in track.samples.iter().enumerate() {
        let samples = [0, 1, 2].map(|source: usize| sources[source][at]);
        let distance = exact(samples, gains) - i64::from(*sent) * 32768;
        assert!((0..=3 * 32767).contains(&distance), "gains {gains:?}, sample {at}: {samples:?} gave {sent}, a distance of {distance}");
    }
    let clipped = track.samples.iter().filter(|sample| [i16::MAX, i16::MIN].contains(sample)).count();
    assert!(ran.printed.starts_with(&format!("track.wav: 400 samples, 0:00:00.009 at 44100 Hz, {clipped} clipped, peak ")), "{ran:?}");
    assert_eq!(ran.printed.lines().count(), 1);
    clipped
}

#[test]
fn a_mix_is_within_the_bound_of_exact_arithmetic() {
    let (folder, mut random) = (mixing(), Random::new(0x7720));
    let all_gains = [[16384, 8192, 11626], [32767, 32767, 32767], [-32767, 20000, 1], [-1, -1, -1], [0, 0, 0]];
    let clipped: usize = all_gains.into_iter().map(|gains| mixed_within_the_bound(&folder, &mut random, gains)).sum();
    assert!(clipped > 100, "{clipped} samples are clipped");
}

#[test]
fn the_sources_go_in_in_their_order() {
    let folder = mixing();
    folder.desk(MIX).is_done("track.wav: 3 samples, 0:00:00.000 at 8000 Hz, 0 clipped, peak 8191 (-12.0 dB)\n");
    // Halves, quarters and 11626/32768ths, each rounded down.
    assert_eq!(folder.sound("track.wav").samples, [500 + 500 + 1064, -500 - 2, 16383 - 8192]);
    assert_eq!(folder.desk("mix --out other.wav mixing.desk --in relay.wav floor.wav booth.wav").status, 0);
    assert_eq!(folder.sound("other.wav").samples, [0, 0, 0], "without the preset");
}

#[test]
fn a_shorter_source_ends_in_silence() {
    let folder = mixing();
    folder.write_sound("relay.wav", 8000, &[3000]);
    assert_eq!(folder.desk(MIX).status, 0);
    assert_eq!(folder.sound("track.wav").samples, [500 + 500 + 1064, -500, 16383 - 8192]);
}

#[test]
fn one_source_and_no_samples_will_do() {
    let folder = mixing().with("through.desk", THROUGH);
    assert_eq!(folder.desk("mix through.desk --in floor.wav --out track.wav").status, 0);
    assert_eq!(folder.sound("track.wav"), folder.sound("floor.wav"));
    folder.write_sound("floor.wav", 8000, &[]);
    let ran = folder.desk("mix through.desk --in floor.wav --out track.wav");
    assert_eq!((ran.status, ran.printed.as_str()), (0, "track.wav: 0 samples, 0:00:00.000 at 8000 Hz, 0 clipped, peak 0 (-inf dB)\n"));
    assert_eq!(folder.sound("track.wav").samples, [0; 0]);
}

#[test]
fn the_events_of_a_script_are_played_once_at_the_start() {
    let folder = mixing();
    // The first word taken is 1; the program sends what it took before. JNSIAK 000H; MOV @SOM,A; MOV @A,SIM; JMP 000H
    folder.write("delay.desk", "program 0: 4B4000H 000019H 0000B1H 500000H\nin 1\nrun 4\nout\n");
    let ran = folder.desk("mix delay.desk --in floor.wav --out track.wav");
    assert_eq!((ran.status, ran.told.as_str(), folder.sound("track.wav").samples), (0, "", vec![1, 2000, 1]));
}

#[test]
fn one_script_may_patch_what_another_gives() {
    let folder = mixing().with("softer.desk", "patch ram 0: 2000H 1000H\n").with("twice.desk", "ram 0: 2000H\n");
    assert_eq!(folder.desk("mix mixing.desk preset.desk softer.desk --in booth.wav floor.wav relay.wav --out track.wav").status, 0);
    assert_eq!(folder.sound("track.wav").samples[0], 250 + 250 + 1064);
    let told = "twice.desk:1:1: ram 000H was given before, at preset.desk:4:1: expected each once, or `patch ram`";
    folder.desk("mix mixing.desk preset.desk twice.desk --in booth.wav floor.wav relay.wav --out other.wav").is_refused(2, told);
}
