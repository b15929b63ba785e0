//! Writes a sound file as a stream.

use super::form::PCM;
use super::stream::BUFFER;
use std::io::{self, BufWriter, ErrorKind, Write};

/// The most samples whose bytes, with 36 of the header, fit the size of the file in that header.
const MOST: u64 = (u32::MAX as u64 - 36) / 2;

/// The header of a sound file: sizes that are not known where the samples are not, or are too many for it.
pub fn header(rate: u32, samples: Option<u64>) -> [u8; 44] {
    let samples = samples.filter(|count| *count <= MOST);
    let size = |more: u32| samples.map_or(u32::MAX, |count| count as u32 * 2 + more).to_le_bytes();
    let parts: [&[u8]; 12] = [
        b"RIFF",
        &size(36),
        b"WAVEfmt ",
        &16u32.to_le_bytes(),
        &PCM.to_le_bytes(),
        &1u16.to_le_bytes(),
        &rate.to_le_bytes(),
        &rate.saturating_mul(2).to_le_bytes(),
        &2u16.to_le_bytes(),
        &16u16.to_le_bytes(),
        b"data",
        &size(0),
    ];
    let mut header = [0; 44];
    let mut at = 0;
    for part in parts {
        header[at..at + part.len()].copy_from_slice(part);
        at += part.len();
    }
    header
}

pub struct Writer<W: Write> {
    output: BufWriter<W>,
    samples: u64,
}

impl<W: Write> Writer<W> {
    /// Writes the header. Where the samples are not known, or come to be others, it can be written again after `finish`.
    pub fn new(mut output: W, rate: u32, samples: Option<u64>) -> io::Result<Writer<W>> {
        if samples.is_some_and(|count| count > MOST) {
            return Err(too_many());
        }
        if rate == 0 || rate > u32::MAX / 2 {
            let message = format!("{rate} samples a second: expected 1 to {}", u32::MAX / 2);
            return Err(io::Error::new(ErrorKind::InvalidInput, message));
        }
        output.write_all(&header(rate, samples))?;
        Ok(Writer { output: BufWriter::with_capacity(BUFFER, output), samples: 0 })
    }

    #[inline]
    pub fn write(&mut self, sample: i16) -> io::Result<()> {
        if self.samples == MOST {
            return Err(too_many());
        }
        self.output.write_all(&sample.to_le_bytes())?;
        self.samples += 1;
        Ok(())
    }

    /// Writes what is still in the buffer, and hands back the output and how many samples were written.
    pub fn finish(self) -> io::Result<(W, u64)> {
        let mut output = self.output.into_inner().map_err(|error| error.into_error())?;
        output.flush()?;
        Ok((output, self.samples))
    }
}

#[cold]
fn too_many() -> io::Error {
    io::Error::new(ErrorKind::FileTooLarge, format!("more than {MOST} samples: expected as many as fit the sizes of a WAV file"))
}

#[cfg(test)]
mod tests {
    use super::super::{bytes, parse, Sound};
    use super::*;
    use std::path::Path;

    fn written(rate: u32, stated: Option<u64>, samples: &[i16]) -> Vec<u8> {
        let mut writer = Writer::new(Vec::new(), rate, stated).unwrap();
        for sample in samples {
            writer.write(*sample).unwrap();
        }
        let (file, count) = writer.finish().unwrap();
        assert_eq!(count, samples.len() as u64);
        file
    }

    #[test]
    fn what_is_written_is_read() {
        let sound = Sound { rate: 48000, samples: (0..100_000).map(|number| number as i16).collect() };
        let file = written(48000, Some(100_000), &sound.samples);
        assert_eq!(file, bytes(&sound));
        let mut streamed = written(48000, None, &sound.samples);
        assert_eq!(parse(Path::new("x.wav"), &streamed), Ok(sound));
        streamed[..44].copy_from_slice(&header(48000, Some(100_000)));
        assert!(streamed == file);
    }

    #[test]
    fn the_header_is_written_at_once() {
        assert_eq!(written(8000, Some(0), &[]), header(8000, Some(0)));
        assert_eq!(written(8000, None, &[]), header(8000, None));
        let mut file = Vec::new();
        let writer = Writer::new(&mut file, 8000, Some(1)).unwrap();
        assert_eq!(writer.output.get_ref()[..], header(8000, Some(1)));
    }

    #[test]
    fn sizes_that_are_not_known_are_all_ones() {
        let (none, most) = (header(8000, None), header(8000, Some(MOST)));
        assert_eq!((&none[4..8], &none[40..]), (&[0xff; 4][..], &[0xff; 4][..]));
        assert_eq!((&most[4..8], &most[40..]), (&[0xfe, 0xff, 0xff, 0xff][..], &[0xda, 0xff, 0xff, 0xff][..]));
        assert_eq!(header(8000, Some(MOST + 1)), none);
        assert_eq!(header(8000, Some(u64::MAX)), none);
    }

    #[test]
    fn what_does_not_fit_is_refused() {
        let told = "more than 2147483629 samples: expected as many as fit the sizes of a WAV file";
        let refused = |rate: u32, samples: Option<u64>| Writer::new(Vec::new(), rate, samples).map(|_| ()).unwrap_err();
        let error = refused(8000, Some(MOST + 1));
        assert_eq!((error.kind(), error.to_string().as_str()), (ErrorKind::FileTooLarge, told));
        for rate in [0, u32::MAX / 2 + 1] {
            let error = refused(rate, None);
            let told = format!("{rate} samples a second: expected 1 to 2147483647");
            assert_eq!((error.kind(), error.to_string()), (ErrorKind::InvalidInput, told));
        }
        let mut writer = Writer::new(Vec::new(), 8000, None).unwrap();
        writer.samples = MOST - 1;
        writer.write(7).unwrap();
        let error = writer.write(8).unwrap_err();
        assert_eq!((error.kind(), error.to_string().as_str()), (ErrorKind::FileTooLarge, told));
        let (file, count) = writer.finish().unwrap();
        assert_eq!((&file[44..], count), (&[7, 0][..], MOST));
    }

    #[test]
    fn what_the_output_holds_back_is_flushed() {
        let mut writer = Writer::new(BufWriter::new(Vec::new()), 8000, Some(1)).unwrap();
        writer.write(7).unwrap();
        let (output, _) = writer.finish().unwrap();
        assert_eq!(*output.get_ref(), bytes(&Sound { rate: 8000, samples: vec![7] }));
    }

    /// An output that takes so many bytes.
    struct Full(usize);

    impl Write for Full {
        fn write(&mut self, bytes: &[u8]) -> io::Result<usize> {
            let count = bytes.len().min(self.0);
            self.0 -= count;
            if count == 0 {
                Err(ErrorKind::StorageFull.into())
            } else {
                Ok(count)
            }
        }

        fn flush(&mut self) -> io::Result<()> {
            Ok(())
        }
    }

    #[test]
    fn an_output_that_fails_is_told() {
        assert!(Writer::new(Full(43), 8000, None).is_err());
        let whole = 44 + 200_000;
        for room in [44, 45, 1000, 44 + BUFFER, 44 + BUFFER + 1, whole - 1, whole] {
            let mut writer = Writer::new(Full(room), 8000, None).unwrap();
            let all = (0..100_000).try_for_each(|number| writer.write(number as i16));
            let finished = all.and_then(|()| writer.finish().map(|(_, count)| count));
            assert_eq!(finished.map_err(|error| error.kind()), if room == whole { Ok(100_000) } else { Err(ErrorKind::StorageFull) });
        }
    }
}
