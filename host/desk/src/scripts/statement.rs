//! The statements of scripts and records, and each as it is written.
//!
//! ```text
//! chip NAME                     77P20 or 77C25, before all that depends on it; 77P20 where it is not said
//! include FILE                  the statements of another script, beside this one
//! program ADDRESS: WORD ..      instruction words from an address on
//! program FILE                  all of them: an image in Intel HEX, beside this script
//! rom ADDRESS: CELL ..          data ROM cells
//! data FILE                     all of them: an image in Intel HEX, beside this script
//! ram ADDRESS: WORD ..          RAM cells
//! preset FILE                   all of them: an image in Intel HEX, beside this script
//! patch program|rom|ram|preset ..  the same over what was given before
//! set REGISTER VALUE            a register, flag or mark by its name
//! event KIND VALUE              an event by its number
//! run WORDS  in WORD  write BYTE  read  status  out  interrupt  reset
//! reply NUMBER [words N] [value V]   what the event before was to be answered
//! sent WORD                     what the desk sent at the `out` before
//! expect REGISTER VALUE         what a register holds now
//! expect ram ADDRESS VALUE      what a RAM cell holds now
//! show                          the registers, and the RAM with what changed marked
//! rate HERTZ                    samples a second of a record
//! sources NAME ..               what the words in of each sample are, in their order
//! samples NUMBER                the end of a record: how many words were sent
//! ```

use crate::chip::device::Device;
use crate::chip::event::Event;
use crate::chip::machine::Memory;
use crate::chip::registers::Register;
use crate::fault::Place;
use std::fmt;

/// The names that a statement may begin with, for messages.
pub const NAMES: [&str; 25] = [
    "chip",
    "include",
    "program",
    "data",
    "rom",
    "ram",
    "preset",
    "patch",
    "set",
    "event",
    "run",
    "in",
    "write",
    "read",
    "status",
    "out",
    "interrupt",
    "reset",
    "reply",
    "sent",
    "expect",
    "show",
    "rate",
    "sources",
    "samples",
];

#[derive(Clone, Debug, PartialEq)]
pub enum Action {
    Chip { device: Device },
    Fill(Fill),
    Set { register: &'static Register, value: u16 },
    Event(Event),
    Reply { number: u32, words: Option<u32>, value: Option<u32> },
    Sent { word: u16 },
    Expect { register: &'static Register, value: u16 },
    ExpectRam { cell: usize, value: u16 },
    Show,
    Rate { hertz: u32 },
    Sources { names: Vec<String> },
    Samples { count: u64 },
}

/// Numbers for an image or the RAM from a place on; a patch may go over what was given before.
#[derive(Clone, Debug, PartialEq)]
pub struct Fill {
    pub memory: Memory,
    pub from: usize,
    pub values: Vec<u32>,
    pub patch: bool,
}

impl Fill {
    /// Whether it gives every cell of the 77P20's RAM, as a preset does.
    pub fn is_preset(&self) -> bool {
        self.memory == Memory::Ram && self.values.len() == bemulatsho::RAM
    }
}

#[derive(Clone, Debug, PartialEq)]
pub struct Statement {
    pub place: Place,
    pub action: Action,
}

impl Action {
    /// The name that it begins with.
    pub fn name(&self) -> &'static str {
        match self {
            Action::Chip { .. } => "chip",
            Action::Fill(Fill { patch: true, .. }) => "patch",
            Action::Fill(Fill { memory, .. }) => memory.name(),
            Action::Set { .. } => "set",
            Action::Event(event) => event.name().unwrap_or("event"),
            Action::Reply { .. } => "reply",
            Action::Sent { .. } => "sent",
            Action::Expect { .. } | Action::ExpectRam { .. } => "expect",
            Action::Show => "show",
            Action::Rate { .. } => "rate",
            Action::Sources { .. } => "sources",
            Action::Samples { .. } => "samples",
        }
    }
}

/// The line that says it; what is read from that line is the same statement.
impl fmt::Display for Action {
    fn fmt(&self, f: &mut fmt::Formatter) -> fmt::Result {
        match self {
            Action::Chip { device } => write!(f, "chip {device}"),
            Action::Fill(fill) => write!(f, "{fill}"),
            Action::Set { register, value } => write!(f, "set {} {}", register.name, register.print(*value)),
            Action::Event(event) => write!(f, "{event}"),
            Action::Reply { number, words, value } => {
                write!(f, "reply {number}")?;
                words.iter().try_for_each(|words| write!(f, " words {words}"))?;
                value.iter().try_for_each(|value| write!(f, " value {value:04X}H"))
            }
            Action::Sent { word } => write!(f, "sent {word:04X}H"),
            Action::Expect { register, value } => write!(f, "expect {} {}", register.name, register.print(*value)),
            Action::ExpectRam { cell, value } => write!(f, "expect ram {cell:02X}H {value:04X}H"),
            Action::Show => f.write_str("show"),
            Action::Rate { hertz } => write!(f, "rate {hertz}"),
            Action::Sources { names } => {
                f.write_str("sources")?;
                names.iter().try_for_each(|name| write!(f, " {}", quoted(name)))
            }
            Action::Samples { count } => write!(f, "samples {count}"),
        }
    }
}

impl fmt::Display for Fill {
    fn fmt(&self, f: &mut fmt::Formatter) -> fmt::Result {
        let Fill { memory, from, values, patch } = self;
        write!(f, "{}{} {from:03X}H:", if *patch { "patch " } else { "" }, memory.name())?;
        let digits = if *memory == Memory::Program { 6 } else { 4 };
        values.iter().try_for_each(|value| write!(f, " {value:0digits$X}H"))
    }
}

/// A name as a line holds it: in quotes where it would not be read as one word. A quote in it becomes an apostrophe.
pub fn quoted(name: &str) -> String {
    let plain = !name.is_empty() && !name.chars().any(|character| character.is_whitespace() || matches!(character, '#' | '"'));
    if plain {
        name.to_string()
    } else {
        format!("\"{}\"", name.replace('"', "'"))
    }
}
