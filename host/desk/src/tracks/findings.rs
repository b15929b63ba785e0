//! What the check of one track has found. However long the track is, this stays small.

use crate::chip::device::Device;
use crate::chip::state::State;
use crate::fault::{Fault, Place};
use crate::tracks::fit::{Share, Shares, Sums};
use crate::tracks::strip::{Joins, Strip};
use std::path::PathBuf;

/// Where no rate is known, levels and sources are looked at over so many samples.
pub const WITHOUT_RATE: u32 = 48_000;

/// Columns of the strip in a second, before any are put together.
const COLUMNS_A_SECOND: u32 = 50;

#[derive(Clone, Debug)]
pub struct Findings {
    /// The track's name for people.
    pub name: String,
    /// The chip that the track is held against.
    pub device: Device,
    pub rate: Option<u32>,
    /// The names of the sources, in the order in which their words go in.
    pub sources: Vec<String>,
    /// Samples that were there and were compared.
    pub samples: u64,
    /// How many there should be, where something says so.
    pub length: Option<u64>,
    pub differing: u64,
    pub first: Option<Difference>,
    /// The last sample that differs.
    pub last: u64,
    /// The largest error, in steps of 16 bits, and its sample.
    pub largest: Largest,
    /// Level and differences over the whole time; a step is a fiftieth of a second.
    pub strip: Strip<Column>,
    /// Which source is on the track over the whole time; a step is a second.
    pub shares: Strip<SharesColumn>,
    /// The first expectation of the record that does not hold, or event that is refused though the record does not expect it.
    pub failed: Option<Fault>,
    /// Why the track is not all there.
    pub missing: Option<String>,
    /// Why it cannot be read, or not to its end.
    pub unreadable: Option<Fault>,
    /// What else a person should know.
    pub notes: Vec<String>,
    /// Every file that was read, included scripts too.
    pub files: Vec<PathBuf>,
    /// Where words first went another way, for engineers.
    pub stretch: Option<Stretch>,
    /// Over all of the track, and over the seconds in which it differs.
    whole: Option<Sums>,
    wrong: Option<Sums>,
    step: Column,
    second: Option<Sums>,
    second_differs: bool,
    /// How many sources are looked for: as many as have names, or as words came in for the first sample.
    fitted: Option<usize>,
}

#[derive(Clone, Copy, Debug, Default, PartialEq, Eq)]
pub struct Largest {
    pub error: u32,
    pub sample: u64,
}

/// The first sample that is not what the chip sends.
#[derive(Clone, Debug)]
pub struct Difference {
    pub sample: u64,
    pub sent: u16,
    pub chip: Chip,
    /// Where the record says what was sent.
    pub place: Option<Place>,
}

/// What the chip does at the `out` of a sample.
#[derive(Clone, Copy, Debug, PartialEq, Eq)]
pub enum Chip {
    Sends(u16),
    Refuses(u8),
}

impl Chip {
    /// What is sent, if anything is.
    fn word(self) -> u16 {
        match self {
            Chip::Sends(word) => word,
            Chip::Refuses(_) => 0,
        }
    }
}

/// One column of the strip.
#[derive(Clone, Copy, Debug, Default, PartialEq, Eq)]
pub struct Column {
    pub samples: u64,
    /// The loudest sample that was sent.
    pub peak: u16,
    pub differing: u64,
}

impl Joins for Column {
    fn join(&mut self, later: &Column) {
        self.samples += later.samples;
        self.peak = self.peak.max(later.peak);
        self.differing += later.differing;
    }
}

/// The sources over one or more seconds: for each the sums of the squares of its gains, and over how many seconds.
#[derive(Clone, Debug, Default)]
pub struct SharesColumn {
    pub sources: Vec<Gains>,
}

#[derive(Clone, Copy, Debug, Default)]
pub struct Gains {
    seconds: f64,
    asked: f64,
    found: f64,
}

impl Gains {
    fn of(share: &Option<Share>) -> Gains {
        match share {
            Some(share) => Gains { seconds: 1.0, asked: share.asked * share.asked, found: share.found * share.found },
            None => Gains::default(),
        }
    }

    /// The gains asked for and found, without their signs; none where the source was silent all the time.
    pub fn mean(&self) -> Option<(f64, f64)> {
        (self.seconds > 0.0).then(|| ((self.asked / self.seconds).sqrt(), (self.found / self.seconds).sqrt()))
    }
}

impl Joins for SharesColumn {
    fn join(&mut self, later: &SharesColumn) {
        for (gains, other) in self.sources.iter_mut().zip(&later.sources) {
            gains.seconds += other.seconds;
            gains.asked += other.asked;
            gains.found += other.found;
        }
    }
}

/// The words among which the first that went another way is: from the last judgement that held to the first that did not.
#[derive(Clone, Debug)]
pub struct Stretch {
    /// The registers and RAM before them.
    pub before: State,
    /// How many words.
    pub words: u64,
    /// Their lines as `desk trace` prints them, events included; the first ones, where there are many.
    pub lines: Vec<String>,
}

impl Findings {
    pub fn new(name: impl Into<String>) -> Findings {
        Findings {
            name: name.into(),
            device: Device::default(),
            rate: None,
            sources: Vec::new(),
            samples: 0,
            length: None,
            differing: 0,
            first: None,
            last: 0,
            largest: Largest::default(),
            strip: Strip::new(),
            shares: Strip::new(),
            failed: None,
            missing: None,
            unreadable: None,
            notes: Vec::new(),
            files: Vec::new(),
            stretch: None,
            whole: None,
            wrong: None,
            step: Column::default(),
            second: None,
            second_differs: false,
            fitted: None,
        }
    }

    /// The chip that the program is for; where it is the larger one, a person is told.
    pub fn of_chip(&mut self, device: Device) {
        self.device = device;
        if device == Device::Upd77c25 {
            self.notes.push(format!("the chip is the {device}"));
        }
    }

    /// One sample: the words in, what the chip does, and what was sent. True if it is the first that differs.
    #[inline]
    pub fn sample(&mut self, inputs: &[i16], chip: Chip, sent: u16, place: Option<Place>) -> bool {
        let same = chip == Chip::Sends(sent);
        let word = chip.word();
        self.step.samples += 1;
        self.step.peak = self.step.peak.max((sent as i16).unsigned_abs());
        let fitted = *self.fitted.get_or_insert(inputs.len().max(self.sources.len()));
        let second = self.second.get_or_insert_with(|| Sums::new(fitted));
        second.sample(inputs, word as i16, sent as i16);
        let second_is_over = second.samples >= u64::from(self.samples_a_second());
        let mut first = false;
        if !same {
            first = self.differs(chip, sent, place);
        }
        self.samples += 1;
        if self.step.samples * u64::from(COLUMNS_A_SECOND) >= u64::from(self.samples_a_second()) {
            self.strip.push(std::mem::take(&mut self.step));
        }
        if second_is_over {
            self.end_second();
        }
        first
    }

    fn samples_a_second(&self) -> u32 {
        self.rate.unwrap_or(WITHOUT_RATE)
    }

    #[cold]
    fn differs(&mut self, chip: Chip, sent: u16, place: Option<Place>) -> bool {
        self.step.differing += 1;
        self.second_differs = true;
        self.differing += 1;
        self.last = self.samples;
        let error = (i32::from(sent as i16) - i32::from(chip.word() as i16)).unsigned_abs();
        if error > self.largest.error {
            self.largest = Largest { error, sample: self.samples };
        }
        let is_first = self.first.is_none();
        if is_first {
            self.first = Some(Difference { sample: self.samples, sent, chip, place });
        }
        is_first
    }

    fn end_second(&mut self) {
        let Some(second) = self.second.take() else { return };
        let shares = second.shares();
        self.shares.push(SharesColumn { sources: shares.sources.iter().map(Gains::of).collect() });
        let add = |sums: &mut Option<Sums>| match sums {
            Some(sums) => sums.join(&second),
            None => *sums = Some(second.clone()),
        };
        add(&mut self.whole);
        if std::mem::take(&mut self.second_differs) {
            add(&mut self.wrong);
        }
    }

    /// The last second and column count too, however short.
    pub fn end(&mut self) {
        if self.step.samples > 0 {
            self.strip.push(std::mem::take(&mut self.step));
        }
        if self.second.as_ref().is_some_and(|second| second.samples > 0) {
            self.end_second();
        }
    }

    /// The sources over all of the track.
    pub fn shares_of_all(&self) -> Option<Shares> {
        self.whole.as_ref().map(Sums::shares)
    }

    /// The sources over the seconds in which the track differs.
    pub fn shares_where_it_differs(&self) -> Option<Shares> {
        self.wrong.as_ref().map(Sums::shares)
    }

    /// Whether nothing but silence was sent.
    pub fn is_silent(&self) -> bool {
        self.samples > 0 && self.strip.columns.iter().all(|column| column.peak == 0)
    }

    /// How many samples there should be, or are.
    pub fn whole(&self) -> u64 {
        self.length.unwrap_or(0).max(self.samples)
    }

    /// The name of a source, or its number where it has none.
    pub fn source_name(&self, at: usize) -> String {
        self.sources.get(at).cloned().unwrap_or_else(|| format!("source {}", at + 1))
    }
}
