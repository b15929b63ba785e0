//! What stands before the samples of a sound file.

use super::form;
use super::stream::{Chunk, Stream};
use super::wrong::Wrong;
use std::io::Read;

pub struct Head {
    /// Samples a second.
    pub rate: u32,
    /// Where the size of the samples stands.
    pub size_at: u64,
    /// How many bytes of samples there are; none if they go on to the end of the input.
    pub size: Option<u64>,
}

/// The sizes of a program that could not know them, nor go back to write them.
const NOT_KNOWN: [u32; 2] = [0, u32::MAX];

/// The sizes that sox writes to a pipe; that of the file grows with what else stands before the samples.
const PIPED_FILE: u32 = 0x7fff_f024;
const PIPED_SAMPLES: u32 = 0x7fff_f000;

/// Reads up to the first byte of the samples.
pub fn read<R: Read>(stream: &mut Stream<R>) -> Result<Head, Wrong> {
    let file_size = file_size(stream)?;
    let mut rate = None;
    while !stream.is_over()? {
        let chunk = stream.chunk()?;
        match (&chunk.name, rate) {
            (b"fmt ", None) => rate = Some(form::rate(stream, &chunk)?),
            (b"fmt ", Some(_)) => return Err(chunk.another()),
            (b"data", None) => return Err(Wrong::broken(chunk.at, "a `data` chunk: expected a `fmt ` chunk before it")),
            (b"data", Some(rate)) => {
                let size = size_of_samples(stream, file_size, &chunk)?;
                return Ok(Head { rate, size_at: chunk.at + 4, size });
            }
            _ => stream.pass_over(&chunk)?,
        }
    }
    Err(stream.end(if rate.is_none() { "a `fmt ` chunk" } else { "a `data` chunk" }))
}

/// The size that the file begins with, which does not count its own eight bytes.
fn file_size<R: Read>(stream: &mut Stream<R>) -> Result<u32, Wrong> {
    let mut start = [0; 12];
    let count = stream.take_some(&mut start)?;
    let (first, size, second) = (&start[..4], &start[4..8], &start[8..]);
    for (at, name, expected) in [(0, first, b"RIFF"), (8, second, b"WAVE")] {
        if count < at + 4 {
            return Err(stream.end("the header of a WAV file"));
        }
        if name != expected {
            let what = format!("\"{}\": expected \"{}\"", name.escape_ascii(), expected.escape_ascii());
            let is_sound = first == b"RIFX" && second == b"WAVE";
            return Err(if is_sound { Wrong::other_form(0, what) } else { Wrong::broken(at as u64, what) });
        }
    }
    let size = u32::from_le_bytes([size[0], size[1], size[2], size[3]]);
    // Only the size of the samples tells whether this one is meant.
    if !NOT_KNOWN.contains(&size) {
        stream.say(u64::from(size) + 8)?;
    }
    Ok(size)
}

fn size_of_samples<R: Read>(stream: &mut Stream<R>, file_size: u32, chunk: &Chunk) -> Result<Option<u64>, Wrong> {
    if is_streamed(file_size, chunk.size) {
        return Ok(None);
    }
    stream.say(u64::from(file_size) + 8)?;
    stream.fits(chunk)?;
    Ok(Some(u64::from(chunk.size)))
}

fn is_streamed(file: u32, samples: u32) -> bool {
    let is_not_known = NOT_KNOWN.contains(&file) && NOT_KNOWN.contains(&samples);
    let is_piped = file >= PIPED_FILE && samples == PIPED_SAMPLES;
    is_not_known || is_piped
}
