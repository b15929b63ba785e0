//! `-` for standard input and output, and sounds whose header could not say how long they are.

use super::{mixing, MIX, THROUGH};
use crate::folder::Folder;
use desk::sound::wav;
use std::path::Path;

const CHECK: &str = "check-track --program mixing.desk preset.desk --in booth.wav floor.wav relay.wav --sent -";

/// A sound with other sizes of the file and of its samples in its header.
fn with_sizes(file: &[u8], whole: u32, samples: u32) -> Vec<u8> {
    let mut file = file.to_vec();
    file[4..8].copy_from_slice(&whole.to_le_bytes());
    file[40..44].copy_from_slice(&samples.to_le_bytes());
    file
}

#[test]
fn a_mix_goes_through_a_pipe_into_its_check() {
    let folder = mixing();
    let ran = folder.shell(&format!("desk {} 2>mixed | desk {CHECK}", MIX.replace("track.wav", "-")));
    let counts = "1 track: agrees 1, differs 0, incomplete 0, unreadable 0";
    ran.is_done(&format!("-: agrees: 3 samples (0:00:00.000), all as the chip sends them\n{counts}\n"));
    assert_eq!(folder.text("mixed"), "desk: standard output: 3 samples, 0:00:00.000 at 8000 Hz, 0 clipped, peak 8191 (-12.0 dB)\n");
}

#[test]
fn a_mix_that_is_another_is_found_behind_a_pipe() {
    let folder = mixing();
    let mix = MIX.replace("track.wav", "-").replace("booth.wav floor.wav", "floor.wav booth.wav");
    let ran = folder.shell(&format!("desk {mix} 2>mixed | desk {CHECK}"));
    assert!(
        ran.status == 1
            && ran.printed.starts_with("-: differs: from 0:00:00.000 (sample 0) on; at the first of these samples the desk sent "),
        "{ran:?}"
    );
}

#[test]
fn standard_output_has_the_bytes_of_the_file() {
    let folder = mixing();
    assert_eq!(folder.desk(MIX).status, 0);
    let output = folder.output_with_input(&MIX.replace("track.wav", "-"), b"");
    assert!(output.status.success());
    assert_eq!(output.stdout, folder.read("track.wav"));
}

#[test]
fn a_source_is_read_from_standard_input() {
    let folder = mixing();
    assert_eq!(folder.desk(MIX).status, 0);
    let track = folder.read("track.wav");
    let ran = folder.desk_with_input(&MIX.replace("floor.wav", "-"), &folder.read("floor.wav"));
    assert_eq!((ran.status, ran.told.as_str()), (0, ""));
    assert_eq!(folder.read("track.wav"), track);
}

#[test]
fn sizes_that_were_not_known_are_read_to_the_end_and_told() {
    let folder = mixing();
    assert_eq!(folder.desk(MIX).status, 0);
    let (track, floor) = (folder.read("track.wav"), folder.read("floor.wav"));
    for (whole, samples) in [(0, 0), (u32::MAX, u32::MAX), (0, u32::MAX), (0x7fff_f024, 0x7fff_f000)] {
        folder.write("floor.wav", with_sizes(&floor, whole, samples));
        let (ran, told) = (folder.desk(MIX), "desk: floor.wav: the header states no length: whether it was cut cannot be seen\n");
        assert_eq!((ran.status, ran.told.as_str()), (0, told));
        assert_eq!(folder.read("track.wav"), track, "the track's own header says its length");
    }
}

#[test]
fn a_track_of_unknown_length_has_a_header_that_says_so() {
    let folder = mixing().with("through.desk", THROUGH);
    let streamed = with_sizes(&folder.read("floor.wav"), 0, 0);
    let output = folder.output_with_input("mix through.desk --in - --out -", &streamed);
    assert!(output.status.success());
    assert_eq!(output.stdout, with_sizes(&folder.read("floor.wav"), u32::MAX, u32::MAX));
    assert_eq!(wav::parse(Path::new("-"), &output.stdout), Ok(folder.sound("floor.wav")));
}

#[test]
fn a_pipe_of_mixes_gives_what_one_file_gives() {
    let folder = Folder::new().with("through.desk", THROUGH);
    let samples: Vec<i16> = (0..30_000).map(|at| (at * 7) as i16).collect();
    folder.write_sound("a.wav", 8000, &samples);
    let through = "desk mix through.desk --in - --out - 2>>told";
    let ran = folder.shell(&format!("cat a.wav | {through} | {through} | desk mix through.desk --in - --out b.wav"));
    assert_eq!((ran.status, ran.told.as_str()), (0, ""));
    assert_eq!(folder.sound("b.wav").samples, samples);
}

#[test]
fn a_source_that_is_cut_on_its_way_is_told() {
    let folder = mixing();
    let floor = folder.read("floor.wav");
    let ran = folder.desk_with_input(&MIX.replace("floor.wav", "-"), &floor[..floor.len() - 1]);
    ran.is_refused(2, "standard input: at byte 49: the file ends: expected 50 bytes, as its header says");
    assert!(!folder.names().contains(&"track.wav".to_string()));
}

/// The other mix of a pipe failed: nothing came, and that is no track.
#[test]
fn an_input_with_nothing_in_it_is_told() {
    let folder = mixing();
    let ran = folder.desk_with_input(&MIX.replace("floor.wav", "-"), b"");
    ran.is_refused(2, "standard input: at byte 0: the file ends: expected the header of a WAV file");
}
