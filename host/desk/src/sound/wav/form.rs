//! The form of the samples: the one that the desk takes.

use super::stream::{Chunk, Stream};
use super::wrong::Wrong;
use std::io::Read;

pub const PCM: u16 = 1;

/// The format that stands in an extension, as a GUID.
const EXTENSIBLE: u16 = 0xfffe;
const EXTENSIBLE_PCM: [u8; 16] = [1, 0, 0, 0, 0, 0, 0x10, 0, 0x80, 0, 0, 0xaa, 0, 0x38, 0x9b, 0x71];

/// A `fmt ` chunk as far as the desk reads it; zero where a shorter one has ended.
type Fields = [u8; 40];

/// Reads the rest of a `fmt ` chunk: the rate, if the form is the one that the desk takes.
pub fn rate<R: Read>(stream: &mut Stream<R>, chunk: &Chunk) -> Result<u32, Wrong> {
    stream.fits(chunk)?;
    long_enough(chunk, 16)?;
    let mut fields: Fields = [0; 40];
    let count = chunk.size.min(40);
    stream.take_all(&mut fields[..count as usize], "the rest of a chunk")?;
    let rate = checked_rate(chunk, &fields)?;
    stream.pass_rest(chunk, chunk.size - count)?;
    Ok(rate)
}

fn long_enough(chunk: &Chunk, least: u32) -> Result<(), Wrong> {
    if chunk.size < least {
        return Err(Wrong::broken(chunk.at + 4, format!("`fmt ` has {} bytes: expected {least} or more", chunk.size)));
    }
    Ok(())
}

fn checked_rate(chunk: &Chunk, fields: &Fields) -> Result<u32, Wrong> {
    let start = chunk.at + 8;
    let small = |at: usize| u16::from_le_bytes([fields[at], fields[at + 1]]);
    let large = |at: usize| u32::from(small(at)) | u32::from(small(at + 2)) << 16;
    let (format, channels, rate, bytes_a_second, bytes_a_sample, bits) = (small(0), small(2), large(4), large(8), small(12), small(14));
    if format != PCM && format != EXTENSIBLE {
        return Err(Wrong::other_form(start, format!("format {format}: expected 1 (PCM)")));
    }
    if channels != 1 {
        return Err(Wrong::other_form(start + 2, format!("{channels} channels: expected 1 (mono)")));
    }
    if bits != 16 {
        return Err(Wrong::other_form(start + 14, format!("{bits} bits a sample: expected 16")));
    }
    if format == EXTENSIBLE {
        check_extension(chunk, fields)?;
    }
    if rate == 0 {
        return Err(Wrong::broken(start + 4, "0 samples a second: expected a rate"));
    }
    if u64::from(bytes_a_second) != u64::from(rate) * 2 {
        return Err(Wrong::broken(start + 8, format!("{bytes_a_second} bytes a second: expected {}", u64::from(rate) * 2)));
    }
    if bytes_a_sample != 2 {
        return Err(Wrong::broken(start + 12, format!("{bytes_a_sample} bytes a sample: expected 2")));
    }
    Ok(rate)
}

fn check_extension(chunk: &Chunk, fields: &Fields) -> Result<(), Wrong> {
    let start = chunk.at + 8;
    long_enough(chunk, 40)?;
    let (size, valid_bits) = (u16::from_le_bytes([fields[16], fields[17]]), u16::from_le_bytes([fields[18], fields[19]]));
    if size < 22 {
        return Err(Wrong::broken(start + 16, format!("an extension of {size} bytes: expected 22 or more")));
    }
    if valid_bits != 16 {
        return Err(Wrong::other_form(start + 18, format!("{valid_bits} valid bits a sample: expected 16")));
    }
    if fields[24..] != EXTENSIBLE_PCM {
        let what = format!("format {}: expected {} (PCM)", guid(&fields[24..]), guid(&EXTENSIBLE_PCM));
        return Err(Wrong::other_form(start + 24, what));
    }
    Ok(())
}

/// A GUID as it is printed: its first three numbers stand in the file with the low byte first.
fn guid(bytes: &[u8]) -> String {
    let mut text = String::new();
    for (printed, at) in [3, 2, 1, 0, 5, 4, 7, 6, 8, 9, 10, 11, 12, 13, 14, 15].into_iter().enumerate() {
        let dash = if matches!(printed, 4 | 6 | 8 | 10) { "-" } else { "" };
        text.push_str(&format!("{dash}{:02X}", bytes[at]));
    }
    text
}

#[cfg(test)]
mod tests {
    use super::*;

    #[test]
    fn a_guid_is_printed_as_usual() {
        assert_eq!(guid(&EXTENSIBLE_PCM), "00000001-0000-0010-8000-00AA00389B71");
        let bytes: Vec<u8> = (0..16).collect();
        assert_eq!(guid(&bytes), "03020100-0504-0706-0809-0A0B0C0D0E0F");
    }
}
