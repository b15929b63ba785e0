//! Damaged scripts, records, images, presets and sound files: nothing panics, and what is accepted is sound. Some thousand by default, as many as DAMAGED
//! says in a long run (`make damaged-long`); the sequence is the same every time.

use desk::fault::{Fault, Spot};
use desk::images::{self, preset, Image};
use desk::records::compact::{Reader, Writer};
use desk::records::{self, Form};
use desk::scripts::reader::read_text;
use desk::scripts::statement::Action;
use desk::sound::wav::{self, Sound};
use random::Random;
use std::path::Path;

fn how_many() -> u64 {
    std::env::var("DAMAGED").ok().and_then(|count| count.parse().ok()).unwrap_or(5000)
}

/// One to eight hurts: a bit turned, a byte changed, a part cut out, a part doubled, the end cut off.
fn damaged(random: &mut Random, whole: &[u8]) -> Vec<u8> {
    let mut bytes = whole.to_vec();
    for _ in 0..=random.below(8) {
        let (at, other) = (random.place(bytes.len()), random.place(bytes.len()));
        let (from, to) = (at.min(other), at.max(other));
        match random.below(5) {
            _ if bytes.is_empty() => bytes.push(random.next() as u8),
            0 => bytes[at] ^= 1 << random.below(8),
            1 => bytes[at] = random.next() as u8,
            2 => drop(bytes.drain(from..to.min(from + 64))),
            3 => {
                let part = bytes[from..to.min(from + 64)].to_vec();
                bytes.splice(at..at, part);
            }
            _ => bytes.truncate(bytes.len() - random.place(bytes.len().min(64))),
        }
    }
    bytes
}

const SCRIPT: &[u8] = b"# a script with every statement\n\
    rate 48000\nsources booth \"the floor\" relay\n\
    program 0: 501000H 624681H 0\nrom 511: 1FFFH\nram 7FH: 0FFFFH\npatch ram 7FH: 1\nset A 1234H\nset OVA1 1\nset DEPTH 4\n\
    event 0 3\nreply 0 words 3 value 0\nrun 65535\nin 8000H\nout\nsent 1000H\nread\nwrite 255\nstatus\ninterrupt\nreset\n\
    expect PC 100H\nexpect ram 127 0FFFFH\nshow\nsamples 1\n";

#[test]
fn damaged_scripts_are_read_or_refused_with_a_place() {
    let mut random = Random::new(0x7720);
    let (mut read, mut refused) = (0, 0);
    for _ in 0..how_many() {
        let text = damaged(&mut random, SCRIPT);
        match read_text(Path::new("damaged"), &text) {
            Ok(statements) => {
                written_again(statements.into_iter().map(|statement| statement.action).collect());
                read += 1;
            }
            Err(fault) => {
                let Some(Spot::Line { line, column }) = fault.place.map(|place| place.spot) else { panic!("no place: {fault}") };
                let lines = text.split(|byte| *byte == b'\n').count() as u64;
                assert!((1..=lines).contains(&line) && column >= 1 && !fault.message.is_empty());
                refused += 1;
            }
        }
    }
    assert!(read > 0 && refused > 0, "{read} were read and {refused} refused");
}

/// What was read is read from the text that says it, as the same.
fn written_again(actions: Vec<Action>) {
    let text: String = actions.iter().map(|action| format!("{action}\n")).collect();
    let again = read_text(Path::new("again"), text.as_bytes()).unwrap_or_else(|fault| panic!("{fault}: {text}"));
    assert!(again.into_iter().map(|statement| statement.action).eq(actions), "{text}");
}

/// A compact record of the script with some samples more.
fn compact() -> Vec<u8> {
    let samples = "in 1234H\nrun 20\nout\nsent 0FEDH\nin 4321H\nrun 21\nout\nsent 1\n".repeat(20);
    let script = String::from_utf8_lossy(SCRIPT).replace("samples 1\n", &format!("{samples}samples 41\n"));
    let mut writer = Writer::new(Vec::new()).expect("a record");
    for statement in read_text(Path::new("whole"), script.as_bytes()).expect("a script") {
        writer.write(&statement.action).expect("a record");
    }
    writer.finish().expect("a record")
}

#[test]
fn damaged_compact_records_are_never_taken_for_whole() {
    let whole = compact();
    assert_eq!(records::form(&whole), Form::Compact);
    assert!(is_whole(&whole));
    let mut random = Random::new(0x7721);
    let mut undone = 0;
    for _ in 0..how_many() {
        let record = damaged(&mut random, &whole);
        if record == whole {
            undone += 1;
        } else {
            assert!(!is_whole(&record), "{}", record.escape_ascii());
        }
    }
    assert!(undone < how_many() / 10, "{undone} were as before");
}

/// Whether all statements are handed out, up to the end.
fn is_whole(record: &[u8]) -> bool {
    let mut reader = Reader::new(Path::new("damaged"), record);
    loop {
        match reader.next() {
            Ok(Some(_)) => {}
            Ok(None) => return true,
            Err(stop) => {
                assert!(!stop.fault().message.is_empty());
                return false;
            }
        }
    }
}

/// The image of the mixing program.
const IMAGE: &[u8] = include_bytes!("../../../examples/intel_hex/mixing.hex");

#[test]
fn damaged_images_are_loaded_or_refused_with_what_is_wrong() {
    let load = |text: &[u8]| {
        let _ = images::load(Image::Data, Path::new("damaged"), text).map_err(|fault| explained(text, &fault));
        images::load(Image::Program, Path::new("damaged"), text)
    };
    loaded_or_refused(0x77e1, IMAGE, load, |text, words| assert!(words == plainly_read::<2048, 4>(text), "{}", text.escape_ascii()));
}

/// The channel map of a day.
const PRESET: &[u8] = include_bytes!("../../../examples/presets/monday.hex");

#[test]
fn damaged_presets_are_loaded_or_refused_and_half_a_one_never_is_loaded() {
    let load = |text: &[u8]| preset::load(Path::new("damaged"), text);
    loaded_or_refused(0x77e2, PRESET, load, |text, ram| {
        let cells = ram.map(u32::from);
        assert!(cells[..] == plainly_read::<256, 2>(text) && data_bytes(text) == 256, "{}", text.escape_ascii());
        assert_eq!(images::load(Image::Preset, Path::new("again"), text), Ok(cells.to_vec()));
        written_again_as_a_preset(&ram);
    });
}

/// Damages an image again and again: what is loaded is judged, what is refused is explained, and each refusal is met.
fn loaded_or_refused<T>(seed: u64, whole: &[u8], load: impl Fn(&[u8]) -> Result<T, Fault>, judge: impl Fn(&[u8], T)) {
    let mut random = Random::new(seed);
    let (mut loaded, mut refused) = (0, [0; 5]);
    for _ in 0..how_many() {
        let text = damaged_image(&mut random, whole);
        match load(&text) {
            Ok(image) => {
                judge(&text, image);
                loaded += 1;
            }
            Err(fault) => refused[explained(&text, &fault) - 12] += 1,
        }
    }
    assert!(loaded > 0 && refused.iter().all(|count| *count > 0), "{loaded} were loaded and {refused:?} refused");
}

/// What was loaded is loaded from the text that is written of it, as the same.
fn written_again_as_a_preset(cells: &[u16; 128]) {
    let text = preset::written(cells).expect("a text");
    assert_eq!(preset::load(Path::new("written"), text.as_bytes()).as_ref(), Ok(cells));
}

/// How many bytes the data records of a text that is good have together.
fn data_bytes(text: &[u8]) -> usize {
    let records = text.split(|byte| *byte == b'\n').filter_map(bytes_of);
    records.filter(|record| record.get(3) == Some(&0)).map(|record| usize::from(record[0])).sum()
}

/// An image with hurts in one of its lines, or with lines that were taken out, doubled or exchanged; the check byte of a line that was hurt is
/// made good one time in two, so that what comes behind it is reached.
fn damaged_image(random: &mut Random, image: &[u8]) -> Vec<u8> {
    let mut lines: Vec<Vec<u8>> = image.split_inclusive(|byte| *byte == b'\n').map(<[u8]>::to_vec).collect();
    let (at, other) = (random.place(lines.len()), random.place(lines.len()));
    match random.below(8) {
        0 => drop(lines.remove(at)),
        1 => lines.insert(other, lines[at].clone()),
        2 => lines.swap(at, other),
        3 => drop(lines.pop()),
        4 => return damaged(random, image),
        _ => {
            lines[at] = damaged(random, &lines[at]);
            if random.flag() {
                make_good(&mut lines[at]);
            }
        }
    }
    lines.concat()
}

/// Gives a line the check byte of its other bytes.
fn make_good(line: &mut [u8]) {
    let Some(bytes) = bytes_of(line) else { return };
    let Some((_, others)) = bytes.split_last() else { return };
    let check = others.iter().fold(0u8, |check, byte| check.wrapping_sub(*byte));
    let place = 1 + 2 * others.len();
    line[place..place + 2].copy_from_slice(format!("{check:02X}").as_bytes());
}

/// The bytes that a line spells behind its first character.
fn bytes_of(line: &[u8]) -> Option<Vec<u8>> {
    let digits = std::str::from_utf8(line.get(1..)?).ok()?.trim_end();
    (0..digits.len() / 2).map(|at| u8::from_str_radix(digits.get(2 * at..2 * at + 2)?, 16).ok()).collect()
}

/// The words or cells of a text that is good, by so many bytes in all and in each.
fn plainly_read<const ALL: usize, const EACH: usize>(text: &[u8]) -> Vec<u32> {
    let mut image = [0; ALL];
    for record in text.split(|byte| *byte == b'\n').filter_map(bytes_of) {
        if let [1..=255, high, low, 0, data @ .., _] = record.as_slice() {
            let from = usize::from(*high) * 256 + usize::from(*low);
            image[from..from + data.len()].copy_from_slice(data);
        }
    }
    image.chunks_exact(EACH).map(|word| word.iter().rev().fold(0, |number, byte| number << 8 | u32::from(*byte))).collect()
}

/// The number of a refusal, which has its line within the text, says what is wrong, and shows the line.
fn explained(text: &[u8], fault: &Fault) -> usize {
    let lines = text.split_inclusive(|byte| *byte == b'\n').count() as u64;
    match fault.place.map(|place| place.spot) {
        Some(Spot::Line { line, column }) => assert!((1..=lines).contains(&line) && (1..=text.len() + 1).contains(&column), "{fault}"),
        Some(Spot::WholeLine(line)) => assert!((1..=lines).contains(&line), "{fault}"),
        Some(Spot::WholeFile) => assert!(text.is_empty(), "{fault}"),
        other => panic!("{other:?}: {fault}"),
    }
    let (number, rest) = fault.message.strip_prefix("refusal ").and_then(|rest| rest.split_once(", ")).expect("a number");
    let parts = if text.is_empty() { 2 } else { 3 };
    assert!(rest.split(": ").count() >= parts, "what is wrong and the line: {fault}");
    number.parse().expect("a number")
}

/// A sound file with a chunk that is none of ours, damaged; the header's size is made good one time in two, so that the chunks are reached.
fn damaged_sound(random: &mut Random) -> Vec<u8> {
    let samples = (0..random.below(40)).map(|_| random.next() as i16).collect();
    let mut whole = wav::bytes(&Sound { rate: 8000, samples });
    whole.splice(36..36, *b"odd \x05\0\0\0abcde\0");
    let mut bytes = damaged(random, &whole);
    if random.flag() && bytes.len() >= 8 {
        let size = (bytes.len() - 8) as u32;
        bytes[4..8].copy_from_slice(&size.to_le_bytes());
    }
    bytes
}

#[test]
fn damaged_sound_files_are_read_or_refused() {
    let mut random = Random::new(0x77c2);
    let (mut read, mut refused) = (0, 0);
    for _ in 0..how_many() {
        match wav::parse(Path::new("damaged"), &damaged_sound(&mut random)) {
            Ok(sound) => {
                assert_eq!(wav::parse(Path::new("again"), &wav::bytes(&sound)), Ok(sound));
                read += 1;
            }
            Err(fault) => {
                assert!(fault.message.starts_with("damaged: at byte ") && fault.message.contains(": expected "), "{fault}");
                refused += 1;
            }
        }
    }
    assert!(read > 0 && refused > 0, "{read} were read and {refused} refused");
}
