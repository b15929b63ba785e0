//! The example in `examples/intel_hex`: its image is the mixing program, and its script holds.

use crate::folder::{desk_in, examples, repository, Folder};
use crate::run::examples::every_expectation_is_held;
use desk::images::{load, Image};
use desk::scripts::given::Images;
use desk::scripts::reader::Reader;
use desk::tracks::prepared::prepared;
use std::fs;

const FILES: [&str; 4] = ["mixing/preset.desk", "intel_hex/mixing.hex", "intel_hex/data.hex", "intel_hex/worn.hex"];

const SCRIPTS: [&str; 2] = ["intel_hex/mixing_from_hex.desk", "intel_hex/worn.desk"];

#[test]
fn the_words_of_the_image_are_those_of_the_mixing_program() {
    let script = Reader::of_files(&[examples().join("mixing/mixing.desk")]);
    let machine = prepared(&Images::default(), script, &mut Vec::new()).expect("the mixing program").machine;
    let image = |image: Image, name: &str| {
        let path = examples().join("intel_hex").join(name);
        load(image, &path, &fs::read(&path).expect("an image")).unwrap_or_else(|fault| panic!("{fault}"))
    };
    assert_eq!(image(Image::Program, "mixing.hex"), machine.program);
    assert_eq!(image(Image::Data, "data.hex"), machine.rom.iter().map(|cell| u32::from(*cell)).collect::<Vec<u32>>());
}

#[test]
fn the_script_holds() {
    let ran = desk_in(&repository(), "run examples/intel_hex/mixing_from_hex.desk");
    assert_eq!((ran.status, ran.told.as_str(), ran.printed.matches("out: 0 done, value ").count()), (0, "", 2), "{ran:?}");
}

/// Each faulty word of the worn image is refused where the machine comes to it, and mended the mix is what it was.
#[test]
fn the_worn_program_is_refused_word_by_word() {
    let ran = desk_in(&repository(), "run examples/intel_hex/worn.desk");
    assert_eq!((ran.status, ran.told.as_str()), (0, ""), "{ran:?}");
    for (refusal, times) in [(": 5 BRCH", 2), (": 4 the word", 1), (": 18 unused bits set", 2), ("out: 0 done, value 0810H", 1)] {
        assert_eq!(ran.printed.matches(refusal).count(), times, "{refusal}: {ran:?}");
    }
}

#[test]
fn every_expectation_of_the_scripts_is_held() {
    let folder = Folder::new();
    for name in FILES.iter().chain(&SCRIPTS) {
        folder.write(name, fs::read(examples().join(name)).expect("an example"));
    }
    SCRIPTS.iter().for_each(|script| every_expectation_is_held(&folder, script));
}

/// By the image the same track is mixed, and is checked as that.
#[test]
fn the_image_mixes_what_the_mixing_program_mixes() {
    let folder = Folder::new();
    for name in ["mixing/mixing.desk", "mixing/preset.desk", "intel_hex/mixing.hex", "intel_hex/data.hex"] {
        folder.copy_example(name);
    }
    let samples: [Vec<i16>; 3] = [7, 11, 13].map(|step: i32| (0..500).map(|at| (at * step * 997) as i16).collect());
    for (name, samples) in ["booth.wav", "floor.wav", "relay.wav"].into_iter().zip(&samples) {
        folder.write_sound(name, 8000, samples);
    }
    let sources = "--in booth.wav floor.wav relay.wav";
    assert_eq!(folder.desk(&format!("mix mixing.desk preset.desk {sources} --out words.wav")).status, 0);
    assert_eq!(folder.desk(&format!("mix --program mixing.hex --data data.hex preset.desk {sources} --out image.wav")).status, 0);
    assert!(folder.read("words.wav") == folder.read("image.wav"));
    let ran = folder.desk(&format!("check-track --program mixing.hex preset.desk --data data.hex {sources} --sent words.wav"));
    assert!(ran.status == 0 && ran.printed.starts_with("words.wav: agrees: 500 samples "), "{ran:?}");
}
