//! Carries out statements on one machine and judges what they expect.

use crate::chip::device::Device;
use crate::chip::event::{counted, refusal, Answered, Event};
use crate::chip::machine::Machine;
use crate::chip::registers::Register;
use crate::chip::wrong_chip;
use crate::fault::{Fault, Place};
use crate::numbers;
use crate::scripts::statement::{Action, Fill, Statement};
use bemulatsho::kind;

/// The machine, the last event with its reply, and how many words were said to be sent.
#[derive(Default)]
pub struct Player {
    pub machine: Machine,
    answered: Option<Answered>,
    /// The last event, if it was refused and no `reply` has expected that so far.
    refused: Option<(Place, Answered)>,
    /// A `sent` has said what the last event sent.
    said: bool,
    sent: u64,
}

/// What a statement did.
pub enum Played {
    /// An event was given to the machine.
    Answered(Answered),
    /// The machine was prepared, or what was expected held.
    Held,
}

impl Player {
    pub fn new() -> Player {
        Player::default()
    }

    /// Carries out or judges one statement. A fault of status `Failed` is an expectation that does not hold: the machine can go on.
    pub fn play(&mut self, statement: &Statement) -> Result<Played, Fault> {
        self.settle_before(&statement.action)?;
        self.carry_out(statement)
    }

    /// A refusal that no `reply` has expected is a failure, unless this statement may stand before that `reply`.
    pub fn settle_before(&mut self, next: &Action) -> Result<(), Fault> {
        if may_come_before_reply(next) {
            return Ok(());
        }
        self.settle()
    }

    /// A refusal that no `reply` has expected by now is a failure.
    #[inline]
    pub fn settle(&mut self) -> Result<(), Fault> {
        if self.refused.is_none() {
            return Ok(());
        }
        self.refused_unexpectedly()
    }

    #[cold]
    fn refused_unexpectedly(&mut self) -> Result<(), Fault> {
        match self.refused.take() {
            Some((place, answered)) => Err(Fault::failed_at(place, unexpected(&answered, &self.machine))),
            None => Ok(()),
        }
    }

    /// `play` for a caller that has settled what came before.
    pub fn carry_out(&mut self, statement: &Statement) -> Result<Played, Fault> {
        let place = statement.place;
        match &statement.action {
            Action::Chip { device } => self.begin_with(place, *device)?,
            action @ (Action::Fill(_) | Action::Set { .. }) => prepare(&mut self.machine, action),
            Action::Event(event) => return Ok(Played::Answered(self.event(place, *event))),
            Action::Reply { number, words, value } => self.expect_reply(place, *number, *words, *value)?,
            Action::Sent { word } => self.expect_sent(place, *word)?,
            Action::Expect { register, value } => self.expect_register(place, register, *value)?,
            Action::ExpectRam { cell, value } => self.expect_ram(place, *cell, *value)?,
            Action::Samples { count } => self.expect_samples(place, *count)?,
            Action::Show | Action::Rate { .. } | Action::Sources { .. } => {}
        }
        Ok(Played::Held)
    }

    /// A machine of another chip. Readers see that nothing stands before that depends on it, but for the events of a compact record.
    fn begin_with(&mut self, place: Place, device: Device) -> Result<(), Fault> {
        if let Some(Answered { event, .. }) = self.answered {
            return Err(Fault::bad_at(place, format!("`chip {device}` after `{event}`: expected before the first event")));
        }
        self.machine = Machine::new(device);
        Ok(())
    }

    #[inline]
    pub fn event(&mut self, place: Place, event: Event) -> Answered {
        let reply = self.machine.event(event.kind, event.value);
        self.answered(place, Answered { device: self.machine.device(), event, reply })
    }

    /// Notes what an event was answered.
    #[inline]
    pub fn answered(&mut self, place: Place, answered: Answered) -> Answered {
        self.refused = (answered.reply.number != 0).then_some((place, answered));
        self.answered = Some(answered);
        self.said = false;
        answered
    }

    /// The `out` that a `sent` is about; the word counts as sent.
    pub fn out_before(&mut self, place: Place) -> Result<Answered, Fault> {
        match self.answered {
            Some(Answered { event: Event { kind: kind::SERIAL_OUT, .. }, .. }) if self.said => {
                Err(Fault::bad_at(place, "`sent` a second time: expected one for each `out`"))
            }
            Some(out @ Answered { event: Event { kind: kind::SERIAL_OUT, .. }, .. }) => {
                self.said = true;
                self.sent += 1;
                self.refused = None;
                Ok(out)
            }
            Some(Answered { event, .. }) => Err(Fault::bad_at(place, format!("`sent` after `{event}`: expected an `out` before it"))),
            None => Err(Fault::bad_at(place, "`sent`: expected an `out` before it")),
        }
    }

    fn expect_reply(&mut self, place: Place, number: u32, words: Option<u32>, value: Option<u32>) -> Result<(), Fault> {
        let answered = self.answered.ok_or_else(|| Fault::bad_at(place, "`reply`: expected an event before it"))?;
        self.refused = None;
        let reply = answered.reply;
        let same = u32::from(reply.number) == number
            && words.is_none_or(|words| words == u32::from(reply.words))
            && value.is_none_or(|value| value == u32::from(reply.value));
        if same {
            return Ok(());
        }
        let expected = format!("{number}{}", parts(&answered, words, value));
        let found = parts(&answered, words.map(|_| u32::from(reply.words)), value.map(|_| u32::from(reply.value)));
        let message = format!("expected reply {expected}, found {} ({}){found}", reply.number, answered.meaning());
        Err(Fault::failed_at(place, message))
    }

    fn expect_sent(&mut self, place: Place, word: u16) -> Result<(), Fault> {
        self.out_before(place)?;
        self.expect_reply(place, 0, None, Some(u32::from(word)))
    }

    fn expect_register(&self, place: Place, register: &Register, value: u16) -> Result<(), Fault> {
        let found = (register.get)(&self.machine.held);
        same(place, register.name, value, found, |value| register.print(value))
    }

    fn expect_ram(&self, place: Place, cell: usize, value: u16) -> Result<(), Fault> {
        let found = self.machine.cells().get(cell).copied().unwrap_or(0);
        same(place, &format!("ram {cell:02X}H"), value, found, numbers::register)
    }

    fn expect_samples(&self, place: Place, count: u64) -> Result<(), Fault> {
        if count == self.sent {
            return Ok(());
        }
        Err(Fault::failed_at(place, format!("{count} samples are said: found {} `sent` before", self.sent)))
    }
}

/// Carries out a statement that prepares a machine.
pub fn prepare(machine: &mut Machine, action: &Action) {
    match action {
        Action::Fill(Fill { memory, from, values, .. }) => machine.fill(*memory, *from, values),
        Action::Set { register, value } => (register.set)(&mut machine.held, *value),
        _ => {}
    }
}

/// Statements that may stand between an event and the `reply` that it is to have.
fn may_come_before_reply(action: &Action) -> bool {
    matches!(action, Action::Reply { .. } | Action::Sent { .. } | Action::Expect { .. } | Action::ExpectRam { .. } | Action::Show)
}

fn unexpected(answered: &Answered, machine: &Machine) -> String {
    let Answered { device, event, reply } = answered;
    let words = if event.kind == kind::RUN { format!(" after {}", counted(u32::from(reply.words))) } else { String::new() };
    let perhaps = wrong_chip::perhaps(machine, reply.number).unwrap_or_default();
    format!("`{event}` is refused{words}: {}{perhaps}; no `reply` expects it", refusal(*device, reply.number))
}

/// The parts of a reply that a `reply` statement names.
fn parts(answered: &Answered, words: Option<u32>, value: Option<u32>) -> String {
    let value = value.map(|value| format!("value {}", answered.value(value)));
    let parts: Vec<String> = [words.map(counted), value].into_iter().flatten().collect();
    match parts.is_empty() {
        true => String::new(),
        false => format!(" with {}", parts.join(" and ")),
    }
}

fn same(place: Place, name: &str, expected: u16, found: u16, print: impl Fn(u16) -> String) -> Result<(), Fault> {
    if expected == found {
        return Ok(());
    }
    Err(Fault::failed_at(place, format!("expected {name} {}, found {}", print(expected), print(found))))
}

#[cfg(test)]
mod tests {
    use super::*;
    use crate::fault::Spot;
    use std::path::Path;

    /// No script is read so; a compact record hands its events out unseen.
    #[test]
    fn no_chip_stands_behind_an_event() {
        let place = Place { file: Path::new("x"), spot: Spot::WholeFile };
        let mut player = Player::new();
        let mut play = |action| player.play(&Statement { place, action }).map(|_| ()).map_err(|fault| fault.to_string());
        assert_eq!(play(Action::Event(Event { kind: kind::RUN, value: 1 })), Ok(()));
        let told = "x: `chip 77C25` after `run 1`: expected before the first event";
        assert_eq!(play(Action::Chip { device: Device::Upd77c25 }), Err(told.to_string()));
    }
}
