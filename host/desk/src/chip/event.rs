//! Events and their replies in words.

use crate::chip::device::Device;
use bemulatsho::{kind, Reply};
use std::fmt;

/// The names of the events by their kinds.
pub const NAMES: [&str; 8] = ["run", "read", "write", "status", "in", "out", "interrupt", "reset"];

/// An event as it is given to the machine.
#[derive(Clone, Copy, Debug, PartialEq, Eq)]
pub struct Event {
    pub kind: u32,
    pub value: u32,
}

impl Event {
    /// The event of a name, and whether its value is written behind it.
    pub fn named(name: &str) -> Option<(u32, bool)> {
        let kind = NAMES.iter().position(|event| event.eq_ignore_ascii_case(name))? as u32;
        Some((kind, takes_value(kind)))
    }

    /// Its name, if it has one.
    pub fn name(self) -> Option<&'static str> {
        NAMES.get(self.kind as usize).copied()
    }
}

fn takes_value(kind: u32) -> bool {
    matches!(kind, kind::RUN | kind::HOST_WRITES | kind::SERIAL_IN)
}

/// As a script writes it. A value where none belongs is shown, since it is why the event is refused.
impl fmt::Display for Event {
    fn fmt(&self, f: &mut fmt::Formatter) -> fmt::Result {
        let Event { kind, value } = *self;
        match (self.name(), kind) {
            (Some(name), kind::RUN) => write!(f, "{name} {value}"),
            (Some(name), kind::HOST_WRITES) => write!(f, "{name} {value:02X}H"),
            (Some(name), kind::SERIAL_IN) => write!(f, "{name} {value:04X}H"),
            (Some(name), _) if value == 0 => f.write_str(name),
            _ => write!(f, "event {kind} {value}"),
        }
    }
}

/// What a reply's number means, in the words of the rules. 6 and 7 are of the 77P20 alone: the 77C25 has TRB as source 0, and its data ROM
/// cells are as wide as the bus.
pub fn meaning(device: Device, number: u8) -> &'static str {
    match (device, number) {
        (Device::Upd77c25, 4) => "the word at PC is 2^24 or more",
        (Device::Upd77c25, 5) => "the jump code is none of the 36 that are listed",
        (Device::Upd77c25, 6 | 7) => "no such number on this chip",
        (_, number) => meaning_on_the_77p20(number),
    }
}

fn meaning_on_the_77p20(number: u8) -> &'static str {
    match number {
        0 => "done",
        1 => "a lent image or RAM has the wrong length",
        2 => "a register is too wide, the depth over 4, or SR bits 6 to 2 not 0",
        3 => "event kind over 7, or value not allowed",
        4 => "the word at PC is 2^23 or more",
        5 => "BRCH is none of 010, 100, 101",
        6 => "SRC none where the bus is used",
        7 => "the data ROM cell at RP is 8192 or more",
        8 => "RT at depth 0",
        9 => "call, or interrupt taken, at depth 4",
        10 => "serial out with SORQ 0",
        11 => "a field is too wide",
        12 => "bad character or length",
        13 => "bad check byte",
        14 => "record type",
        15 => "address outside, given twice or missing",
        16 => "no end record or text after it",
        18 => "unused bits set",
        _ => "no such number",
    }
}

/// A refusal's number with its meaning.
pub fn refusal(device: Device, number: u8) -> String {
    format!("refusal {number}, {}", meaning(device, number))
}

/// What is said of an interrupt that did nothing.
pub const IGNORED: &str = "ignored: EI is 0";

/// An event and what a chip answered.
#[derive(Clone, Copy, Debug)]
pub struct Answered {
    pub device: Device,
    pub event: Event,
    pub reply: Reply,
}

impl Answered {
    /// The value of a reply as this event's kind has it; none where the kind has none.
    pub fn value(&self, value: u32) -> String {
        match self.event.kind {
            kind::HOST_READS | kind::HOST_READS_STATUS => format!("{value:02X}H"),
            _ => format!("{value:04X}H"),
        }
    }

    /// What the reply's number means.
    pub fn meaning(&self) -> &'static str {
        meaning(self.device, self.reply.number)
    }

    /// Whether the reply of this kind of event has a value.
    pub fn has_value(&self) -> bool {
        matches!(self.event.kind, kind::HOST_READS | kind::HOST_READS_STATUS | kind::SERIAL_OUT)
    }

    /// Whether the reply of this kind of event has words done.
    pub fn has_words(&self) -> bool {
        matches!(self.event.kind, kind::RUN | kind::INTERRUPT)
    }

    /// Whether it is an interrupt that found EI 0: one that is accepted takes words.
    pub fn is_ignored(&self) -> bool {
        self.event.kind == kind::INTERRUPT && self.reply.number == 0 && self.reply.words == 0
    }
}

/// The event, its reply's number with its meaning, and the words done or the value.
impl fmt::Display for Answered {
    fn fmt(&self, f: &mut fmt::Formatter) -> fmt::Result {
        let Reply { number, words, value } = self.reply;
        write!(f, "{}: {number} {}", self.event, self.meaning())?;
        if self.has_words() {
            write!(f, ", {}", counted(u32::from(words)))?;
        }
        if self.has_value() {
            write!(f, ", value {}", self.value(u32::from(value)))?;
        }
        if self.is_ignored() {
            write!(f, " ({IGNORED})")?;
        }
        Ok(())
    }
}

/// A number of words, as it is printed.
pub fn counted(words: u32) -> String {
    match words {
        1 => "1 word".to_string(),
        _ => format!("{words} words"),
    }
}

#[cfg(test)]
mod tests {
    use super::*;

    #[test]
    fn what_is_given_and_found_is_printed_as_the_manual_writes_it() {
        let line = |kind, value, number, words, answer| {
            let (event, reply) = (Event { kind, value }, Reply { number, words, value: answer });
            Answered { device: Device::Upd77p20, event, reply }.to_string()
        };
        assert_eq!(line(0, 3, 0, 3, 0), "run 3: 0 done, 3 words");
        assert_eq!(line(0, 1, 0, 1, 0), "run 1: 0 done, 1 word");
        assert_eq!(line(0, 5, 6, 2, 0), "run 5: 6 SRC none where the bus is used, 2 words");
        assert_eq!(line(1, 0, 0, 0, 0x34), "read: 0 done, value 34H");
        assert_eq!(line(2, 5, 0, 0, 0), "write 05H: 0 done");
        assert_eq!(line(2, 256, 3, 0, 0), "write 100H: 3 event kind over 7, or value not allowed");
        assert_eq!(line(3, 0, 0, 0, 0x80), "status: 0 done, value 80H");
        assert_eq!(line(4, 0x2000, 0, 0, 0), "in 2000H: 0 done");
        assert_eq!(line(5, 0, 0, 0, 0x1000), "out: 0 done, value 1000H");
        assert_eq!(line(6, 0, 0, 2, 0), "interrupt: 0 done, 2 words");
        assert_eq!(line(6, 0, 0, 0, 0), "interrupt: 0 done, 0 words (ignored: EI is 0)");
        assert_eq!(line(6, 0, 9, 0, 0), "interrupt: 9 call, or interrupt taken, at depth 4, 0 words");
        assert_eq!(line(7, 4, 3, 0, 0), "event 7 4: 3 event kind over 7, or value not allowed");
        assert_eq!(line(9, 0, 3, 0, 0), "event 9 0: 3 event kind over 7, or value not allowed");
    }

    #[test]
    fn what_a_number_means_is_the_chips_own() {
        let differ: Vec<u8> =
            (0..=u8::MAX).filter(|number| meaning(Device::Upd77p20, *number) != meaning(Device::Upd77c25, *number)).collect();
        assert_eq!(differ, [4, 5, 6, 7]);
        assert_eq!(refusal(Device::Upd77c25, 4), "refusal 4, the word at PC is 2^24 or more");
    }

    #[test]
    fn an_event_is_found_by_its_name() {
        assert_eq!(Event::named("run"), Some((0, true)));
        assert_eq!(Event::named("OUT"), Some((5, false)));
        assert_eq!(Event::named("dance"), None);
    }
}
