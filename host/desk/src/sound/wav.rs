//! Sound files: WAV with one channel of 16-bit PCM. Any other is refused with the byte where it is other.

mod conversion;
mod form;
mod head;
mod reader;
mod stream;
mod writer;
mod wrong;

pub use reader::{open, Reader, Tail};
pub use writer::{header, Writer};

use crate::fault::Fault;
use std::path::Path;

#[derive(Clone, Debug, PartialEq, Eq)]
pub struct Sound {
    /// Samples a second.
    pub rate: u32,
    pub samples: Vec<i16>,
}

/// Reads a sound file whose bytes are at hand; `file` is its name in faults.
pub fn parse(file: &Path, bytes: &[u8]) -> Result<Sound, Fault> {
    let mut reader = Reader::new(file, bytes)?;
    let mut samples = Vec::with_capacity(bytes.len() / 2);
    while let Some(sample) = reader.next().map_err(Tail::fault)? {
        samples.push(sample);
    }
    Ok(Sound { rate: reader.rate(), samples })
}

/// The sound file of a sound, header and all.
pub fn bytes(sound: &Sound) -> Vec<u8> {
    let header = header(sound.rate, Some(sound.samples.len() as u64));
    header.into_iter().chain(sound.samples.iter().flat_map(|sample| sample.to_le_bytes())).collect()
}

#[cfg(test)]
mod tests {
    use super::*;

    fn good() -> Vec<u8> {
        bytes(&Sound { rate: 8000, samples: vec![0, 1, -1, i16::MAX, i16::MIN] })
    }

    /// A good file with other bytes at a place.
    fn with(at: usize, other: &[u8]) -> Vec<u8> {
        let mut file = good();
        file[at..at + other.len()].copy_from_slice(other);
        file
    }

    /// A good file with a chunk before the one at byte `at`, and the size in the header that goes with it.
    fn with_chunk(at: usize, chunk: &[u8]) -> Vec<u8> {
        let mut file = good();
        file.splice(at..at, chunk.iter().copied());
        let size = (file.len() - 8) as u32;
        file[4..8].copy_from_slice(&size.to_le_bytes());
        file
    }

    fn fault(bytes: &[u8]) -> String {
        parse(Path::new("booth.wav"), bytes).unwrap_err().message
    }

    /// What is told of a file that can be converted.
    fn converted(what: &str) -> String {
        format!("booth.wav: {what}; convert it by: sox booth.wav -b 16 -e signed-integer -c 1 booth-16.wav")
    }

    #[test]
    fn what_is_written_is_read() {
        for samples in [vec![], vec![-5], vec![0, 1, -1, i16::MAX, i16::MIN]] {
            let sound = Sound { rate: 44100, samples };
            assert_eq!(parse(Path::new("x.wav"), &bytes(&sound)), Ok(sound));
        }
    }

    #[test]
    fn other_chunks_are_passed_over() {
        let plain = parse(Path::new("x.wav"), &good());
        for at in [12, 36, 54] {
            for chunk in [&b"LIST\x04\0\0\0abcd"[..], b"odd \x03\0\0\0abc\0", b"none\0\0\0\0"] {
                assert_eq!(parse(Path::new("x.wav"), &with_chunk(at, chunk)), plain, "{} at {at}", chunk.escape_ascii());
            }
        }
    }

    #[test]
    fn other_formats_are_told_with_their_byte() {
        assert_eq!(fault(&with(0, b"RIFX")), converted("at byte 0: \"RIFX\": expected \"RIFF\""));
        assert_eq!(fault(&with(20, &[3, 0])), converted("at byte 20: format 3: expected 1 (PCM)"));
        assert_eq!(fault(&with(22, &[2, 0])), converted("at byte 22: 2 channels: expected 1 (mono)"));
        assert_eq!(fault(&with(34, &[24, 0])), converted("at byte 34: 24 bits a sample: expected 16"));
    }

    #[test]
    fn what_cannot_be_converted_is_told_with_its_byte() {
        assert_eq!(fault(&with(0, b"OggS")), "booth.wav: at byte 0: \"OggS\": expected \"RIFF\"");
        assert_eq!(fault(&with(0, b"RIFX\0\0\0\0AVI ")), "booth.wav: at byte 0: \"RIFX\": expected \"RIFF\"");
        assert_eq!(fault(&with(8, b"AVI ")), "booth.wav: at byte 8: \"AVI \": expected \"WAVE\"");
        assert_eq!(fault(&with(24, &[0; 4])), "booth.wav: at byte 24: 0 samples a second: expected a rate");
        assert_eq!(fault(&with(28, &[0; 4])), "booth.wav: at byte 28: 0 bytes a second: expected 16000");
        assert_eq!(fault(&with(32, &[4, 0])), "booth.wav: at byte 32: 4 bytes a sample: expected 2");
    }

    #[test]
    fn sizes_that_do_not_hold_are_told() {
        let long: Vec<u8> = good().into_iter().chain([0, 0]).collect();
        assert_eq!(fault(b""), "booth.wav: at byte 0: the file ends: expected the header of a WAV file");
        assert_eq!(fault(&good()[..50]), "booth.wav: at byte 50: the file ends: expected 54 bytes, as its header says");
        assert_eq!(fault(&long), "booth.wav: at byte 54: the file goes on: expected 54 bytes, as its header says");
        assert_eq!(fault(&with(40, &[12, 0, 0, 0])), "booth.wav: at byte 40: `data` has 12 bytes: expected at most the 10 that follow");
        assert_eq!(fault(&with(40, &[9, 0, 0, 0])), "booth.wav: at byte 40: `data` has 9 bytes: expected an even number, two a sample");
        assert_eq!(fault(&with(40, &[8, 0, 0, 0])), "booth.wav: at byte 54: the file ends: expected the name of a chunk");
        assert_eq!(
            fault(&with_chunk(54, b"odd \x03\0\0\0abc")),
            "booth.wav: at byte 65: the file ends: expected the pad byte of an odd chunk"
        );
        assert_eq!(fault(&with(16, &[2, 0, 0, 0])), "booth.wav: at byte 16: `fmt ` has 2 bytes: expected 16 or more");
    }

    #[test]
    fn each_chunk_stands_once_and_in_order() {
        assert_eq!(fault(&with(12, b"none")), "booth.wav: at byte 36: a `data` chunk: expected a `fmt ` chunk before it");
        assert_eq!(fault(&with(36, b"none")), "booth.wav: at byte 54: the file ends: expected a `data` chunk");
        assert_eq!(fault(&with_chunk(36, b"data\0\0\0\0")), "booth.wav: at byte 44: another `data` chunk: expected one");
        assert_eq!(fault(&with_chunk(36, &good()[12..36])), "booth.wav: at byte 36: another `fmt ` chunk: expected one");
        assert_eq!(fault(&with_chunk(54, &good()[12..36])), "booth.wav: at byte 54: another `fmt ` chunk: expected one");
    }

    /// A good file whose format stands in an extension, with other bytes at a place.
    fn extensible(at: usize, other: &[u8]) -> Vec<u8> {
        let mut file = good();
        file.splice(36..36, *b"\x16\0\x10\0\x04\0\0\0\x01\0\0\0\0\0\x10\0\x80\0\0\xaa\0\x38\x9b\x71");
        file[4] += 24;
        file[16] += 24;
        file[20..22].copy_from_slice(&[0xfe, 0xff]);
        file[at..at + other.len()].copy_from_slice(other);
        file
    }

    #[test]
    fn an_extensible_format_is_read() {
        let plain = parse(Path::new("x.wav"), &good());
        assert_eq!(parse(Path::new("x.wav"), &extensible(0, b"")), plain);
        let mut longer = extensible(36, &[26]);
        longer.splice(60..60, *b"more");
        longer[4] += 4;
        longer[16] += 4;
        assert_eq!(parse(Path::new("x.wav"), &longer), plain);
    }

    #[test]
    fn an_extensible_format_that_is_another_is_told_with_its_byte() {
        assert_eq!(fault(&with(20, &[0xfe, 0xff])), "booth.wav: at byte 16: `fmt ` has 16 bytes: expected 40 or more");
        assert_eq!(fault(&extensible(36, &[21])), "booth.wav: at byte 36: an extension of 21 bytes: expected 22 or more");
        assert_eq!(fault(&extensible(28, &[1])), "booth.wav: at byte 28: 15873 bytes a second: expected 16000");
        assert_eq!(fault(&extensible(22, &[2])), converted("at byte 22: 2 channels: expected 1 (mono)"));
        assert_eq!(fault(&extensible(34, &[24])), converted("at byte 34: 24 bits a sample: expected 16"));
        assert_eq!(fault(&extensible(38, &[12])), converted("at byte 38: 12 valid bits a sample: expected 16"));
        for (at, other, shown) in [(44, 3, "00000003-0000-0010-8000-00AA00389B71"), (59, 0x72, "00000001-0000-0010-8000-00AA00389B72")] {
            let what = format!("at byte 44: format {shown}: expected 00000001-0000-0010-8000-00AA00389B71 (PCM)");
            assert_eq!(fault(&extensible(at, &[other])), converted(&what));
        }
    }

    /// A good file with other sizes of the file and of its samples.
    fn with_sizes(file: u32, samples: u32) -> Vec<u8> {
        let mut bytes = with(4, &file.to_le_bytes());
        bytes[40..44].copy_from_slice(&samples.to_le_bytes());
        bytes
    }

    #[test]
    fn a_file_that_was_streamed_goes_on_to_its_end() {
        let plain = parse(Path::new("x.wav"), &good());
        let not_known = [(0, 0), (0, u32::MAX), (u32::MAX, 0), (u32::MAX, u32::MAX)];
        let piped = [(0x7fff_f024, 0x7fff_f000), (0x7fff_f048, 0x7fff_f000), (u32::MAX, 0x7fff_f000)];
        for (file, samples) in not_known.into_iter().chain(piped) {
            assert_eq!(parse(Path::new("x.wav"), &with_sizes(file, samples)), plain, "{file:X} {samples:X}");
            let mut longer = with_sizes(file, samples);
            longer.splice(36..36, *b"odd \x03\0\0\0abc\0");
            assert_eq!(parse(Path::new("x.wav"), &longer), plain, "{file:X} {samples:X}");
            let told = "booth.wav: at byte 53: the file ends: expected the second byte of a sample";
            assert_eq!(fault(&with_sizes(file, samples)[..53]), told, "{file:X} {samples:X}");
        }
    }

    #[test]
    fn other_sizes_are_taken_at_their_word() {
        let told = "booth.wav: at byte 40: `data` has 2147479552 bytes: expected at most the 2147479551 that follow";
        assert_eq!(fault(&with_sizes(0x7fff_f023, 0x7fff_f000)), told);
        let told = r"booth.wav: at byte 48: `\x00\x00\x01\x00` has 2147483647 bytes: expected at most the 2 that follow";
        assert_eq!(fault(&with(40, &[0; 4])), told);
        let told = "booth.wav: at byte 40: `data` has 4294967295 bytes: expected at most the 10 that follow";
        assert_eq!(fault(&with(40, &[0xff; 4])), told);
        assert_eq!(fault(&with(4, &[0; 4])), "booth.wav: at byte 8: the file goes on: expected 8 bytes, as its header says");
        assert_eq!(fault(&with(4, &[1, 0, 0, 0])), "booth.wav: at byte 9: the file goes on: expected 9 bytes, as its header says");
        assert_eq!(fault(&with(4, &[4, 0, 0, 0])), "booth.wav: at byte 12: the file goes on: expected 12 bytes, as its header says");
        let told = "booth.wav: at byte 54: the file ends: expected 4294967303 bytes, as its header says";
        assert_eq!(fault(&with(4, &[0xff; 4])), told);
    }

    #[test]
    fn a_streamed_file_that_ends_before_its_samples_is_told() {
        let end = |end: usize| fault(&with_sizes(u32::MAX, u32::MAX)[..end]);
        assert_eq!(end(12), "booth.wav: at byte 12: the file ends: expected a `fmt ` chunk");
        assert_eq!(end(14), "booth.wav: at byte 14: the file ends: expected the name of a chunk");
        assert_eq!(end(30), "booth.wav: at byte 30: the file ends: expected the rest of a chunk");
        assert_eq!(end(36), "booth.wav: at byte 36: the file ends: expected a `data` chunk");
        assert_eq!(end(43), "booth.wav: at byte 43: the file ends: expected the size of a chunk");
    }

    #[test]
    fn standard_input_is_told_by_its_name() {
        let fault = |bytes: &[u8]| parse(Path::new("-"), bytes).unwrap_err().message;
        assert_eq!(fault(b""), "standard input: at byte 0: the file ends: expected the header of a WAV file");
        let told = "standard input: at byte 22: 2 channels: expected 1 (mono); \
                    convert it by: sox -t wav - -b 16 -e signed-integer -c 1 -t wav -";
        assert_eq!(fault(&with(22, &[2])), told);
    }
}
