//! The example in `examples/larger_desk`: what it says is sent is sent, and its mix is that of the smaller desk.

use crate::folder::{desk_in, repository, Folder};
use crate::run::examples::every_expectation_is_held;
use random::Random;

const SOUNDS: [&str; 3] = ["booth.wav", "floor.wav", "relay.wav"];

fn example() -> Folder {
    let folder = Folder::new();
    ["mixing.desk", "gains.desk", "played.desk"].iter().for_each(|name| folder.copy_example(&format!("larger_desk/{name}")));
    folder
}

#[test]
fn every_sample_is_sent_as_it_was_worked_out() {
    for command in ["run --quiet", "trace"] {
        let ran = desk_in(&repository(), &format!("{command} examples/larger_desk/played.desk"));
        assert_eq!((ran.status, ran.told.as_str()), (0, ""));
    }
    every_expectation_is_held(&example(), "played.desk");
}

/// By the same gains, with sums that leave 16 bits on either side.
#[test]
fn a_mix_is_that_of_the_smaller_desk_and_within_the_bound() {
    let folder = example();
    let mut random = Random::new(0x7725);
    let sources = [0; 3].map(|_| (0..300).map(|_| random.word() as i16).collect::<Vec<i16>>());
    SOUNDS.iter().zip(&sources).for_each(|(name, samples)| folder.write_sound(name, 48000, samples));
    let smaller = std::fs::read_to_string(repository().join("examples/mixing/mixing.desk")).expect("the smaller program");
    folder.write("smaller.desk", smaller);
    for gains in [[0x4000, 0x2000, 0x2d6a], [0x7fff; 3], [-0x7fff, 0x5001, 1]] {
        let [booth, floor, relay] = gains.map(|gain: i32| format!("{:04X}H", gain as u16));
        folder.write("rom.desk", format!("rom 3FDH: {relay} {floor} {booth}\n"));
        folder.write("ram.desk", format!("ram 0: {booth} {floor} {relay}\n"));
        for (scripts, track) in [("mixing.desk rom.desk", "larger.wav"), ("smaller.desk ram.desk", "smaller.wav")] {
            assert_eq!(folder.desk(&format!("mix {scripts} --in {} --out {track} --record {track}.record", SOUNDS.join(" "))).status, 0);
            assert_eq!(folder.desk(&format!("check-track {track}.record")).status, 0);
        }
        let track = folder.sound("larger.wav");
        assert_eq!(track, folder.sound("smaller.wav"));
        for (at, sent) in track.samples.iter().enumerate() {
            let products: i64 = sources.iter().zip(gains).map(|(samples, gain)| i64::from(samples[at]) * i64::from(gain)).sum();
            let distance = products.clamp(-32768 * 32768, 32767 * 32768) - i64::from(*sent) * 32768;
            assert!((0..=3 * 32767).contains(&distance), "gains {gains:?}, sample {at}: {sent}, a distance of {distance}");
        }
    }
}
