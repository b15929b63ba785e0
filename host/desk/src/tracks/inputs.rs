//! The sources of a track, read side by side: one sample of each at a time. A source that has ended counts as silence.

use crate::fault::Fault;
use crate::sound::wav::{self, Tail};
use std::io::Read;
use std::path::{Path, PathBuf};

pub struct Inputs {
    sources: Vec<Source>,
    /// The rate of all.
    pub rate: u32,
}

struct Source {
    reader: wav::Reader<Box<dyn Read + Send>>,
    ended: bool,
    /// Samples of digital silence at its end so far.
    zeros: u64,
}

impl Inputs {
    pub fn open(files: &[PathBuf]) -> Result<Inputs, Fault> {
        let mut sources = Vec::new();
        for file in files {
            sources.push(Source { reader: wav::open(file)?, ended: false, zeros: 0 });
        }
        let rate = sources.first().map_or(0, |source| source.reader.rate());
        let inputs = Inputs { sources, rate };
        inputs.sources.iter().try_for_each(|source| inputs.same_rate(source.reader.file(), source.reader.rate()))?;
        Ok(inputs)
    }

    /// Whether a sound has the rate of the sources.
    pub fn same_rate(&self, file: &Path, rate: u32) -> Result<(), Fault> {
        match self.sources.first() {
            Some(first) if rate != self.rate => {
                let first = first.reader.file().display();
                Err(Fault::bad(format!("{first}: {} Hz, and {}: {rate} Hz: expected one rate", self.rate, file.display())))
            }
            _ => Ok(()),
        }
    }

    pub fn count(&self) -> usize {
        self.sources.len()
    }

    /// How many samples the longest has, if every header says it.
    pub fn stated(&self) -> Option<u64> {
        self.sources.iter().map(|source| source.reader.stated()).try_fold(0, |longest, stated| Some(stated?.max(longest)))
    }

    /// The longest so far: all of it, when every source has ended.
    pub fn longest(&self) -> u64 {
        self.sources.iter().map(|source| source.reader.taken()).max().unwrap_or(0)
    }

    /// The next sample of each; false when all have ended.
    #[inline]
    pub fn next(&mut self, row: &mut [i16]) -> Result<bool, Tail> {
        let mut any = false;
        for (source, sample) in self.sources.iter_mut().zip(row) {
            *sample = match source.next()? {
                Some(value) => {
                    any = true;
                    value
                }
                None => 0,
            };
        }
        Ok(any)
    }

    /// What a person should know of the sources once they have ended: silence, padding, unequal lengths.
    pub fn remarks(&self) -> Vec<String> {
        let longest = self.longest();
        let mut remarks = Vec::new();
        for Source { reader, zeros, .. } in &self.sources {
            let (file, length) = (reader.file().display(), reader.taken());
            if length < longest {
                remarks.push(format!("{file}: {length} samples, the longest source has {longest}: silence is mixed for the rest"));
            }
            if length > 0 && *zeros == length {
                remarks.push(format!("{file}: silent from beginning to end"));
            } else if *zeros >= u64::from(self.rate) {
                remarks.push(format!("{file}: padded: the last {zeros} samples are digital silence"));
            }
        }
        remarks
    }

    /// The sources of which it cannot be seen whether they were cut.
    pub fn without_length(&self) -> Vec<String> {
        let readers = self.sources.iter().map(|source| &source.reader).filter(|reader| reader.stated().is_none());
        readers
            .map(|reader| format!("{}: the header states no length: whether it was cut cannot be seen", reader.file().display()))
            .collect()
    }

    /// Whether a header says that the longest source is as long as it is.
    pub fn shows_its_length(&self) -> bool {
        let longest = Some(self.longest());
        self.sources.iter().any(|source| source.reader.stated() == longest)
    }
}

impl Source {
    #[inline]
    fn next(&mut self) -> Result<Option<i16>, Tail> {
        if self.ended {
            return Ok(None);
        }
        let sample = self.reader.next()?;
        match sample {
            Some(0) => self.zeros += 1,
            Some(_) => self.zeros = 0,
            None => self.ended = true,
        }
        Ok(sample)
    }
}
