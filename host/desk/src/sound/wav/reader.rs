//! Reads a sound file as a stream: a block of samples is held, whatever its length.

use super::head;
use super::stream::{limited, Stream, BUFFER};
use super::wrong::{shown, Wrong};
use crate::fault::Fault;
use crate::files::is_standard;
use std::fs::File;
use std::io::{self, Read};
use std::path::{Path, PathBuf};

/// Why the samples of a file end other than they should.
#[derive(Clone, Debug, PartialEq, Eq)]
pub enum Tail {
    /// The file ends before its header says that it does, or within a sample.
    Cut(Fault),
    /// The file cannot be read on, or what it holds behind the samples is not as it should be.
    Bad(Fault),
}

impl Tail {
    pub fn fault(self) -> Fault {
        match self {
            Tail::Cut(fault) | Tail::Bad(fault) => fault,
        }
    }

    fn of(file: &Path, wrong: Wrong) -> Tail {
        match wrong {
            Wrong::Cut(..) => Tail::Cut(wrong.fault(file)),
            _ => Tail::Bad(wrong.fault(file)),
        }
    }
}

pub struct Reader<R: Read> {
    file: PathBuf,
    stream: Stream<R>,
    rate: u32,
    /// Where the size of the samples stands in the file, and that size in bytes.
    size_at: u64,
    size: Option<u64>,
    /// Bytes of samples that are not yet in a block, where the header says how many there are.
    left: Option<u64>,
    block: Vec<i16>,
    /// The next sample of the block, and how many were in the blocks before it.
    next: usize,
    before: u64,
    is_over: bool,
}

/// Opens a sound file; `-` is standard input.
pub fn open(path: &Path) -> Result<Reader<Box<dyn Read + Send>>, Fault> {
    if is_standard(path) {
        return Reader::new(path, Box::new(io::stdin()));
    }
    let file = File::open(path).map_err(|error| Fault::of_file(path, "read", &error))?;
    Reader::new(path, Box::new(file))
}

impl<R: Read> Reader<R> {
    /// Reads up to the first sample; `file` is the name in faults.
    pub fn new(file: &Path, input: R) -> Result<Reader<R>, Fault> {
        let mut stream = Stream::new(input);
        let head = head::read(&mut stream).map_err(|wrong| wrong.fault(file))?;
        Ok(Reader {
            file: shown(file).to_path_buf(),
            stream,
            rate: head.rate,
            size_at: head.size_at,
            size: head.size,
            left: head.size,
            block: Vec::with_capacity(BUFFER / 2),
            next: 0,
            before: 0,
            is_over: false,
        })
    }

    /// The name of the file in what is told.
    pub fn file(&self) -> &Path {
        &self.file
    }

    /// Samples a second.
    pub fn rate(&self) -> u32 {
        self.rate
    }

    /// How many samples there are by the header; none if it does not say, and the samples go on to the end of the input.
    pub fn stated(&self) -> Option<u64> {
        self.size.map(|bytes| bytes / 2)
    }

    /// How many samples were handed out.
    pub fn taken(&self) -> u64 {
        self.before + self.next as u64
    }

    /// The next sample. None is the end: all of the file was read, and is as its header says. After a fault there is none either.
    // An iterator would give the fault within the option, where `?` does not see it.
    #[allow(clippy::should_implement_trait)]
    #[inline]
    pub fn next(&mut self) -> Result<Option<i16>, Tail> {
        match self.block.get(self.next) {
            Some(sample) => {
                self.next += 1;
                Ok(Some(*sample))
            }
            None => self.first_of_next_block(),
        }
    }

    #[cold]
    fn first_of_next_block(&mut self) -> Result<Option<i16>, Tail> {
        self.before += self.block.len() as u64;
        self.next = 0;
        self.block.clear();
        if self.is_over {
            return Ok(None);
        }
        let filled = self.fill_block();
        self.is_over = self.block.is_empty();
        self.next = usize::from(!self.is_over);
        filled.map_err(|wrong| Tail::of(&self.file, wrong))?;
        Ok(self.block.first().copied())
    }

    /// Fills the block with what samples wait; it stays empty where they end as they should.
    fn fill_block(&mut self) -> Result<(), Wrong> {
        if self.left.is_some_and(|left| left < 2) {
            return self.pass_tail();
        }
        self.stream.wait_for(2)?;
        let waiting = self.stream.waiting();
        let count = limited(waiting.len(), self.left.unwrap_or(u64::MAX)) / 2 * 2;
        if count == 0 {
            return self.end_of_input();
        }
        self.block.extend(waiting[..count].chunks_exact(2).map(|sample| i16::from_le_bytes([sample[0], sample[1]])));
        self.stream.pass(count);
        self.left = self.left.map(|left| left - count as u64);
        Ok(())
    }

    /// The input ends where another sample may stand.
    fn end_of_input(&mut self) -> Result<(), Wrong> {
        let odd = self.stream.waiting().len();
        self.stream.pass(odd);
        match self.left {
            Some(_) => Err(self.stream.end("a sample")),
            None if odd > 0 => Err(Wrong::cut(self.stream.at(), "the file ends: expected the second byte of a sample")),
            None => Ok(()),
        }
    }

    /// Reads all that stands behind the samples, up to the end of the input.
    fn pass_tail(&mut self) -> Result<(), Wrong> {
        if let Some(size) = self.size.filter(|size| !size.is_multiple_of(2)) {
            return Err(Wrong::cut(self.size_at, format!("`data` has {size} bytes: expected an even number, two a sample")));
        }
        while !self.stream.is_over()? {
            let chunk = self.stream.chunk()?;
            match &chunk.name {
                b"fmt " | b"data" => return Err(chunk.another()),
                _ => self.stream.pass_over(&chunk)?,
            }
        }
        self.stream.closes()
    }
}

#[cfg(test)]
mod tests {
    use super::super::{bytes, header, parse, Sound};
    use super::*;
    use random::Random;
    use std::io::ErrorKind;

    const SAMPLES: [i16; 5] = [0, 1, -1, i16::MAX, i16::MIN];

    /// A file with a chunk before its samples and an odd one behind them.
    fn good() -> Vec<u8> {
        let mut file = bytes(&Sound { rate: 8000, samples: SAMPLES.to_vec() });
        file.splice(36..36, *b"LIST\x04\0\0\0abcd");
        file.extend(b"odd \x03\0\0\0abc\0");
        sized(file)
    }

    /// Where the samples of the good file begin and end.
    const START: usize = 56;
    const END: usize = 66;

    /// A file with the size in its header that it has.
    fn sized(mut file: Vec<u8>) -> Vec<u8> {
        let size = (file.len() - 8) as u32;
        file[4..8].copy_from_slice(&size.to_le_bytes());
        file
    }

    fn streamed() -> Vec<u8> {
        header(8000, None).into_iter().chain(SAMPLES.iter().flat_map(|sample| sample.to_le_bytes())).collect()
    }

    /// All samples, and what is wrong at their end.
    fn drained(input: impl Read) -> Result<(Vec<i16>, Option<Tail>), Fault> {
        let mut reader = Reader::new(Path::new("booth.wav"), input)?;
        let mut samples = Vec::new();
        let tail = loop {
            match reader.next() {
                Ok(Some(sample)) => samples.push(sample),
                Ok(None) => break None,
                Err(tail) => break Some(tail),
            }
            assert_eq!(reader.taken(), samples.len() as u64);
        };
        assert_eq!((reader.next(), reader.next()), (Ok(None), Ok(None)));
        assert_eq!(reader.taken(), samples.len() as u64);
        Ok((samples, tail))
    }

    fn cut(message: &str) -> Option<Tail> {
        Some(Tail::Cut(Fault::bad(message)))
    }

    fn bad(message: &str) -> Option<Tail> {
        Some(Tail::Bad(Fault::bad(message)))
    }

    /// Gives at most so many bytes at a time, at random, and is interrupted now and then.
    struct Pieces<'a> {
        bytes: &'a [u8],
        most: usize,
        random: Random,
    }

    impl Read for Pieces<'_> {
        fn read(&mut self, into: &mut [u8]) -> io::Result<usize> {
            if self.random.place(4) == 0 {
                return Err(ErrorKind::Interrupted.into());
            }
            let count = into.len().min(1 + self.random.place(self.most));
            self.bytes.read(&mut into[..count])
        }
    }

    #[test]
    fn the_header_is_told_before_the_samples_are_read() {
        let (file, streamed) = (good(), streamed());
        let mut reader = Reader::new(Path::new("booth.wav"), &file[..START]).unwrap();
        assert_eq!((reader.rate(), reader.stated(), reader.taken(), reader.file()), (8000, Some(5), 0, Path::new("booth.wav")));
        assert!(matches!(reader.next(), Err(Tail::Cut(_))));
        let reader = Reader::new(Path::new("-"), &streamed[..]).unwrap();
        assert_eq!((reader.rate(), reader.stated(), reader.taken(), reader.file()), (8000, None, 0, Path::new("standard input")));
    }

    #[test]
    fn every_cut_is_told() {
        let file = good();
        assert_eq!(drained(&file[..]), Ok((SAMPLES.to_vec(), None)));
        for end in 0..file.len() {
            assert!(parse(Path::new("booth.wav"), &file[..end]).is_err(), "cut at {end}");
            let Ok(outcome) = drained(&file[..end]) else {
                assert!(end < START, "cut at {end}");
                continue;
            };
            let whole = (end.min(END) - START) / 2;
            let told = cut(&format!("booth.wav: at byte {end}: the file ends: expected 78 bytes, as its header says"));
            assert_eq!(outcome, (SAMPLES[..whole].to_vec(), told));
        }
    }

    #[test]
    fn every_part_of_a_streamed_file_gives_whole_samples() {
        let file = streamed();
        for end in 0..=file.len() {
            let outcome = drained(&file[..end]);
            if end < 44 {
                assert!(outcome.is_err(), "cut at {end}");
                continue;
            }
            let told = format!("booth.wav: at byte {end}: the file ends: expected the second byte of a sample");
            let tail = if end % 2 == 0 { None } else { cut(&told) };
            assert_eq!(outcome, Ok((SAMPLES[..(end - 44) / 2].to_vec(), tail)));
        }
    }

    #[test]
    fn an_odd_number_of_bytes_is_a_cut() {
        let mut file = bytes(&Sound { rate: 8000, samples: SAMPLES.to_vec() });
        file[40] = 9;
        let told = cut("booth.wav: at byte 40: `data` has 9 bytes: expected an even number, two a sample");
        assert_eq!(drained(&file[..]), Ok((SAMPLES[..4].to_vec(), told)));
    }

    #[test]
    fn what_is_wrong_behind_the_samples_is_told() {
        let with = |more: &[u8]| sized([&good(), more].concat());
        let tail = |file: Vec<u8>| {
            let (samples, tail) = drained(&file[..]).unwrap();
            assert_eq!(samples, SAMPLES);
            tail
        };
        let long = [&good()[..], b"x"].concat();
        assert_eq!(tail(long), bad("booth.wav: at byte 78: the file goes on: expected 78 bytes, as its header says"));
        assert_eq!(tail(with(b"data\0\0\0\0")), bad("booth.wav: at byte 78: another `data` chunk: expected one"));
        assert_eq!(tail(with(b"fmt \0\0\0\0")), bad("booth.wav: at byte 78: another `fmt ` chunk: expected one"));
        assert_eq!(tail(with(b"x")), bad("booth.wav: at byte 79: the file ends: expected the name of a chunk"));
        assert_eq!(tail(with(b"none\0\0")), bad("booth.wav: at byte 84: the file ends: expected the size of a chunk"));
        assert_eq!(tail(with(b"odd \x01\0\0\0x")), bad("booth.wav: at byte 87: the file ends: expected the pad byte of an odd chunk"));
        let told = bad("booth.wav: at byte 82: `none` has 2 bytes: expected at most the 1 that follow");
        assert_eq!(tail(with(b"none\x02\0\0\0x")), told);
    }

    #[test]
    fn an_input_that_fails_is_told() {
        struct Failing;
        impl Read for Failing {
            fn read(&mut self, _: &mut [u8]) -> io::Result<usize> {
                Err(io::Error::other("the cable is out"))
            }
        }
        let message = "booth.wav: cannot read: the cable is out";
        for file in [good(), streamed()] {
            assert_eq!(drained(file[..40].chain(Failing)), Err(Fault::bad(message)));
            let start = if file == good() { START } else { 44 };
            assert_eq!(drained(file[..start + 5].chain(Failing)), Ok((SAMPLES[..2].to_vec(), bad(message))));
            assert_eq!(drained(file.chain(Failing)), Ok((SAMPLES.to_vec(), bad(message))));
        }
        let broken = sized([&good()[..], b"x"].concat());
        assert_eq!(drained(broken.chain(Failing)), Ok((SAMPLES.to_vec(), bad(message))));
    }

    #[test]
    fn the_pieces_in_which_a_file_comes_are_all_one() {
        let long = [&good()[..], b"more"].concat();
        let second = sized([&good()[..], b"data\0\0\0\0"].concat());
        for file in [good(), streamed(), long, second, good()[..61].to_vec(), good()[..20].to_vec(), streamed()[..49].to_vec()] {
            for most in [1, 2, 3, 7, 50] {
                for seed in 0..20 {
                    assert_eq!(drained(Pieces { bytes: &file, most, random: Random::new(seed) }), drained(&file[..]));
                }
            }
        }
    }

    #[test]
    fn damaged_files_are_read_or_refused() {
        let mut random = Random::new(0x7720);
        let (mut read, mut refused) = (0, 0);
        for turn in 0..6000 {
            let mut file = if turn % 3 == 0 { streamed() } else { good() };
            for _ in 0..=random.place(4) {
                let at = random.place(file.len());
                file[at] = if random.place(2) == 0 { random.next() as u8 } else { file[at] ^ 1 << random.place(8) };
            }
            file.truncate(file.len() - random.place(12) / 8);
            let told = |fault: &Fault| assert!(fault.message.starts_with("booth.wav: at byte ") && fault.message.contains(": expected "));
            match drained(&file[..]) {
                Ok((samples, tail)) => {
                    assert!(samples.len() * 2 <= file.len() - 44);
                    tail.iter().for_each(|tail| told(&tail.clone().fault()));
                    read += usize::from(tail.is_none());
                    refused += usize::from(tail.is_some());
                }
                Err(fault) => {
                    told(&fault);
                    refused += 1;
                }
            }
        }
        assert!(read > 100 && refused > 100, "{read} were read and {refused} refused");
    }

    /// The bytes of so many samples, each of them its number, made as they are asked for.
    struct Counting {
        at: u64,
        samples: u64,
    }

    impl Read for Counting {
        fn read(&mut self, into: &mut [u8]) -> io::Result<usize> {
            let count = limited(into.len(), self.samples * 2 - self.at);
            for byte in &mut into[..count] {
                *byte = ((self.at / 2) >> (self.at % 2 * 8)) as u8;
                self.at += 1;
            }
            Ok(count)
        }
    }

    #[test]
    fn a_long_sound_is_read_and_not_held() {
        let samples = 3_000_001;
        for stated in [Some(samples), None] {
            let input = header(48000, stated);
            let mut reader = Reader::new(Path::new("long.wav"), input.chain(Counting { at: 0, samples })).unwrap();
            for number in 0..samples {
                assert_eq!(reader.next(), Ok(Some(number as i16)));
            }
            assert_eq!((reader.next(), reader.taken(), reader.stated()), (Ok(None), samples, stated));
            assert_eq!(reader.block.capacity(), BUFFER / 2);
        }
    }

    #[test]
    fn a_long_chunk_is_passed_over() {
        let (start, rest) = (&good()[..36], &good()[36..]);
        let length: u32 = 100_000_001;
        let mut head = [start, b"long", &length.to_le_bytes()].concat();
        head[4..8].copy_from_slice(&(length + 1 + 8 + 70).to_le_bytes());
        let input = head.chain(io::repeat(7).take(u64::from(length) + 1)).chain(rest);
        assert_eq!(drained(input), Ok((SAMPLES.to_vec(), None)));
    }

    #[test]
    fn files_are_opened() {
        let folder = std::env::temp_dir().join(format!("desk-wav-{}", std::process::id()));
        std::fs::create_dir_all(&folder).unwrap();
        let file = folder.join("booth.wav");
        std::fs::write(&file, good()).unwrap();
        let reader: Box<dyn Send> = Box::new(open(&file).unwrap());
        drop(reader);
        assert_eq!(open(&file).map(|mut reader| (reader.next(), reader.rate())).unwrap(), (Ok(Some(0)), 8000));
        for path in [&folder.join("none.wav"), &folder] {
            let fault = open(path).map(|_| ()).unwrap_err();
            assert!(fault.message.starts_with(&format!("{}: cannot read: ", path.display())), "{fault}");
        }
        std::fs::remove_dir_all(folder).unwrap();
    }
}
