//! A recorded track: its events are given to the proved core again, and each word that was sent is held against what the chip sends.

use crate::chip::event::{Answered, Event};
use crate::fault::{Fault, Place, Status};
use crate::progress::Meter;
use crate::records::compact::Stop;
use crate::records::{self, Common, Record};
use crate::scripts::player::{Played, Player};
use crate::scripts::statement::{Action, Statement};
use crate::tracks::findings::{Chip, Findings};
use crate::tracks::mixer::MOST_SOURCES;
use crate::tracks::stretch::Since;
use bemulatsho::kind;
use std::path::Path;

/// Checks one record.
pub fn check(name: &str, record: &Path, meter: &Meter) -> Findings {
    let mut replay = Replay::new(name);
    match records::open(record) {
        Ok(mut record) => {
            replay.all(&mut record, meter);
            replay.findings.files = record.files();
        }
        Err(fault) => replay.findings.unreadable = Some(fault),
    }
    replay.findings.end();
    replay.findings
}

struct Replay {
    player: Player,
    findings: Findings,
    since: Since,
    /// The words in since the last `out`.
    inputs: Vec<i16>,
    /// An `out` that was answered 0 and whose word the record has not said so far.
    unsaid: Option<Place>,
    /// The number of samples that the record ends with was there.
    ended: bool,
    /// How many statements behind the first sample set a register or memory, which no desk does.
    set_within: u64,
}

impl Replay {
    fn new(name: &str) -> Replay {
        let player = Player::new();
        let since = Since::new(&player.machine);
        let inputs = Vec::with_capacity(MOST_SOURCES);
        Replay { player, findings: Findings::new(name), since, inputs, unsaid: None, ended: false, set_within: 0 }
    }

    fn all(&mut self, record: &mut Record, meter: &Meter) {
        let mut count = 0u32;
        loop {
            count = count.wrapping_add(1);
            if count.is_multiple_of(4096) {
                meter.at(record.bytes());
            }
            if let Some((place, common)) = record.common() {
                if let Err(fault) = self.common(place, common) {
                    self.findings.unreadable = Some(fault);
                    return;
                }
                continue;
            }
            match record.next() {
                Ok(Some(statement)) => {
                    if let Err(fault) = self.statement(&statement) {
                        self.findings.unreadable = Some(fault);
                        return;
                    }
                }
                Ok(None) => break,
                Err(Stop::Cut(fault)) => {
                    self.missing(format!("the record is cut: {fault}"));
                    return;
                }
                Err(Stop::Bad(fault)) => {
                    self.findings.unreadable = Some(fault);
                    return;
                }
            }
        }
        meter.at(record.bytes());
        self.end();
    }

    /// Carries out and judges a statement; a fault is one that makes the record unreadable.
    fn statement(&mut self, statement: &Statement) -> Result<(), Fault> {
        match &statement.action {
            Action::Event(event) => self.common(statement.place, Common::Event(*event)),
            Action::Sent { word } => self.common(statement.place, Common::Sent(*word)),
            action => {
                let settled = self.player.settle_before(action);
                self.judged(settled)?;
                self.other(statement, action)
            }
        }
    }

    #[inline(always)]
    fn common(&mut self, place: Place, common: Common) -> Result<(), Fault> {
        match common {
            Common::Event(event) => {
                let settled = self.player.settle();
                self.judged(settled)?;
                self.said();
                self.event(place, event);
                Ok(())
            }
            Common::Sent(word) => self.sent(place, word),
        }
    }

    #[inline]
    fn event(&mut self, place: Place, event: Event) {
        self.since.event(event);
        let answered = self.player.event(place, event);
        match event.kind {
            kind::SERIAL_IN if self.inputs.len() < MOST_SOURCES => self.inputs.push(event.value as u16 as i16),
            kind::SERIAL_OUT if answered.reply.number == 0 => self.unsaid = Some(place),
            _ => {}
        }
    }

    #[inline]
    fn sent(&mut self, place: Place, word: u16) -> Result<(), Fault> {
        let Answered { reply, .. } = self.player.out_before(place)?;
        self.unsaid = None;
        let chip = match reply.number {
            0 => Chip::Sends(reply.value),
            number => Chip::Refuses(number),
        };
        let first = self.findings.sample(&self.inputs, chip, word, Some(place));
        self.inputs.clear();
        if first {
            self.went_another_way();
        }
        self.since.held(&self.player.machine);
        Ok(())
    }

    fn other(&mut self, statement: &Statement, action: &Action) -> Result<(), Fault> {
        match action {
            Action::Rate { hertz } if self.findings.samples == 0 && self.findings.rate.is_none() => self.findings.rate = Some(*hertz),
            Action::Rate { .. } => return Err(Fault::bad_at(statement.place, "`rate`: expected once, before the first sample")),
            Action::Sources { names } => self.findings.sources.clone_from(names),
            Action::Samples { count } => return self.samples(statement.place, *count),
            Action::Fill(_) | Action::Set { .. } if self.findings.samples > 0 => self.set_within += 1,
            _ => {}
        }
        self.since.prepared(action);
        let played = self.player.carry_out(statement);
        if let (Action::Chip { device }, Ok(_)) = (action, &played) {
            self.findings.of_chip(*device);
            self.since = Since::new(&self.player.machine);
        }
        let judges = matches!(action, Action::Reply { .. } | Action::Expect { .. } | Action::ExpectRam { .. });
        if judges && matches!(played, Ok(Played::Held)) {
            self.since.held(&self.player.machine);
        }
        self.judged(played.map(|_| ()))
    }

    /// An expectation that does not hold is kept, the first of them, and the replay goes on.
    #[inline]
    fn judged(&mut self, judged: Result<(), Fault>) -> Result<(), Fault> {
        match judged {
            Ok(()) => Ok(()),
            Err(fault) if fault.status == Status::Failed => {
                self.went_another_way();
                self.findings.failed.get_or_insert(fault);
                Ok(())
            }
            Err(fault) => Err(fault),
        }
    }

    /// Keeps the words since the last judgement that held, the first time.
    fn went_another_way(&mut self) {
        if self.findings.stretch.is_none() {
            self.findings.stretch = self.since.again(&self.player.machine);
        }
    }

    /// Another event comes, or the end: what the last `out` sent must have been said.
    #[inline]
    fn said(&mut self) {
        if let Some(place) = self.unsaid.take() {
            self.inputs.clear();
            self.missing(format!("{place}: the `out` has no `sent` behind it"));
        }
    }

    fn samples(&mut self, place: Place, count: u64) -> Result<(), Fault> {
        self.said();
        self.ended = true;
        self.findings.length = Some(count);
        if count != self.findings.samples {
            self.missing(format!("{place}: the record has {} samples of the {count} that it ends with", self.findings.samples));
        }
        Ok(())
    }

    fn end(&mut self) {
        if self.set_within > 0 {
            let note = format!("the record sets registers or memory within the track, {} times", self.set_within);
            self.findings.notes.push(note);
        }
        let settled = self.player.settle();
        if let Err(fault) = self.judged(settled) {
            self.findings.unreadable = Some(fault);
        }
        self.said();
        if !self.ended {
            let message = format!("the record is cut: it ends after {} samples without the line `samples`", self.findings.samples);
            self.missing(message);
        } else if self.findings.samples == 0 {
            self.missing("no word was sent: there is nothing to check".to_string());
        }
    }

    /// The first reason is kept.
    fn missing(&mut self, reason: String) {
        self.findings.missing.get_or_insert(reason);
    }
}
