//! Sound through a program of the 77C25: mixed, recorded, and checked from sound files and by a list.

use super::THROUGH;
use crate::folder::Folder;
use crate::images::program;

const AGREES: &str = "agrees: 3 samples (0:00:00.000), all as the chip sends them; the chip is the 77C25\n";

fn through() -> Folder {
    let folder = Folder::new().with("through.desk", THROUGH);
    folder.write_sound("a.wav", 8000, &[1, -2, 32767]);
    folder
}

#[test]
fn a_mix_is_written_and_its_record_carries_the_chip() {
    let folder = through();
    folder
        .desk("mix through.desk --in a.wav --out b.wav --record b.record")
        .is_done("b.wav: 3 samples, 0:00:00.000 at 8000 Hz, 1 clipped, peak 32767 (0.0 dB)\n");
    assert_eq!(folder.sound("b.wav"), folder.sound("a.wav"));
    let ran = folder.desk("convert b.record -");
    assert!(ran.printed.starts_with("rate 8000\nsources a\nchip 77C25\nprogram 000H: 968000H 0000B9H A00000H\nin 0001H\n"), "{ran:?}");
    let ran = folder.desk("check-track b.record");
    assert_eq!((ran.status, ran.printed.lines().next()), (0, Some(format!("b.record: {AGREES}").trim_end())));
}

#[test]
fn a_track_is_checked_from_its_sounds_and_by_a_list() {
    let folder = through();
    let ran = folder.desk("check-track --program through.desk --in a.wav --sent a.wav");
    assert_eq!((ran.status, ran.printed.lines().next()), (0, Some(format!("a.wav: {AGREES}").trim_end())));
    folder.write("evening.tracks", "track Larger program through.desk in a.wav sent a.wav\n");
    let ran = folder.desk("check-track --tracks evening.tracks");
    assert_eq!((ran.status, ran.printed.lines().next()), (0, Some(format!("Larger: {AGREES}").trim_end())));
}

/// Both orders of a program's files: the image before the script that says the chip, and behind it.
#[test]
fn an_image_is_no_program_for_the_larger_chip() {
    let folder = through().with("p.hex", program(&[])).with("chip.desk", "chip 77C25\n");
    let refused = "images in Intel HEX are of the 77P20: expected the words in the script, as `program 000H: WORD ..`";
    for (files, told) in [
        ("chip.desk p.hex", format!("p.hex: behind the `chip 77C25` at chip.desk:1:1: {refused}")),
        ("p.hex chip.desk", format!("chip.desk:1:1: `chip 77C25` behind p.hex: {refused}")),
    ] {
        let ran = folder.desk(&format!("check-track --program {files} --in a.wav --sent a.wav"));
        assert_eq!((ran.status, ran.printed.lines().next()), (2, Some(format!("a.wav: unreadable: {told}").as_str())));
    }
    folder.write("evening.tracks", "track Larger program through.desk preset m.hex in a.wav sent a.wav\n");
    folder.write("m.hex", crate::images::text(&[0; 256]));
    let ran = folder.desk("check-track --tracks evening.tracks");
    let told = "Larger: unreadable: through.desk:1:1: `chip 77C25` behind m.hex: \
                presets in Intel HEX are of the 77P20: expected the cells in the script, as `ram 000H: WORD ..`";
    assert_eq!((ran.status, ran.printed.lines().next()), (2, Some(told)));
}

#[test]
fn scripts_of_a_mix_follow_the_chip_of_the_first() {
    let folder = through().with("ram.desk", "ram FFH: 1\n").with("other.desk", "chip 77P20\n");
    assert_eq!(folder.desk("mix through.desk ram.desk --in a.wav --out b.wav").status, 0);
    let told = "through.desk:1:1: `chip 77C25`: expected before all that depends on it; a `ram` stands at low.desk:1:1";
    folder.write("low.desk", "ram 0: 1\n");
    folder.desk("mix low.desk through.desk --in a.wav --out c.wav").is_refused(2, told);
    let told = "other.desk:1:1: `chip 77P20`: expected once; `chip 77C25` stands at through.desk:1:1";
    folder.desk("mix through.desk other.desk --in a.wav --out c.wav").is_refused(2, told);
    assert!(!folder.names().contains(&"c.wav".to_string()));
}
