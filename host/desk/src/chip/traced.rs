//! The lines of a trace: a word with its address and mnemonics, or an event, and what it changed.

use crate::chip::device::Device;
use crate::chip::event::{meaning, Answered, Event, IGNORED};
use crate::chip::machine::Machine;
use crate::chip::mnemonics;
use crate::chip::state::State;
use crate::numbers;
use bemulatsho::{kind, Reply};

/// A word that was run, or refused, and what changed but for PC's step to the next address.
pub struct TracedWord {
    pub reply: Reply,
    spelled: Spelled,
    changes: String,
}

/// Runs the word at PC.
pub fn run_word(machine: &mut Machine) -> TracedWord {
    let mut before = State::of(machine);
    let spelled = Spelled::at_pc(machine);
    let reply = machine.event(kind::RUN, 1);
    let pc = &mut before.held.registers.pc;
    *pc = pc.wrapping_add(1) % machine.device().words() as u16;
    let changes = if reply.number == 0 { before.changes(&State::of(machine)) } else { refused(machine.device(), reply) };
    TracedWord { reply, spelled, changes }
}

/// An event other than a run, and what changed.
pub struct TracedEvent {
    pub answered: Answered,
    changes: String,
}

pub fn give_event(machine: &mut Machine, event: Event) -> TracedEvent {
    let before = State::of(machine);
    let answered = Answered { device: machine.device(), event, reply: machine.event(event.kind, event.value) };
    let changes = match answered.reply.number {
        0 if answered.is_ignored() => IGNORED.to_string(),
        0 => before.changes(&State::of(machine)),
        _ => refused(answered.device, answered.reply),
    };
    TracedEvent { answered, changes }
}

fn refused(device: Device, reply: Reply) -> String {
    format!("refused {}: {}", reply.number, meaning(device, reply.number))
}

/// The address, the word that stands there and its mnemonics.
struct Spelled {
    address: String,
    word: String,
    mnemonics: String,
}

impl Spelled {
    fn at_pc(machine: &Machine) -> Spelled {
        let address = numbers::address(machine.pc());
        match machine.program.get(usize::from(machine.pc())) {
            Some(word) => Spelled { address, word: numbers::word(*word), mnemonics: mnemonics::line(machine.device(), *word) },
            None => Spelled { address, word: "no word".to_string(), mnemonics: String::new() },
        }
    }
}

/// Number, address, word, mnemonics, changes. An event's name stands under address and word, its reply under the mnemonics.
pub struct Columns {
    mnemonics: usize,
}

impl Columns {
    const NUMBER: usize = 6;
    const ADDRESS_AND_WORD: usize = "000H  000000H".len();
    const REPLY: usize = "reply 0 value 0000H".len();
    /// The longest word that has no remarks.
    const LONGEST: usize = "MOV @MEM,DRNF ADD ACCA,RAM DPINC M1 RPDEC RET".len();

    /// As wide as the longest mnemonics need.
    pub fn wide_enough(widest: usize) -> Columns {
        Columns { mnemonics: widest.clamp(Columns::REPLY, Columns::LONGEST) }
    }

    /// As wide as the words of a program need.
    pub fn of_program(machine: &Machine) -> Columns {
        let lengths = machine.program.iter().map(|word| mnemonics::line(machine.device(), *word).len());
        Columns::wide_enough(lengths.max().unwrap_or(0))
    }

    /// The line of a word; `number` counts the words that finished, without the two that an interrupt takes: they have no line.
    pub fn word(&self, number: u64, word: &TracedWord) -> String {
        let number = if word.reply.number == 0 { number.to_string() } else { String::new() };
        let place = format!("{}  {}", word.spelled.address, word.spelled.word);
        self.line(&number, &place, &word.spelled.mnemonics, &word.changes)
    }

    pub fn event(&self, event: &TracedEvent) -> String {
        let answered = &event.answered;
        let reply = match answered.reply.number {
            0 if answered.has_words() => format!("reply 0 words {}", answered.reply.words),
            0 if answered.has_value() => format!("reply 0 value {}", answered.value(u32::from(answered.reply.value))),
            0 => "reply 0".to_string(),
            _ => String::new(),
        };
        self.line("", &answered.event.to_string(), &reply, &event.changes)
    }

    fn line(&self, number: &str, place: &str, middle: &str, changes: &str) -> String {
        let (number_width, place_width, middle_width) = (Columns::NUMBER, Columns::ADDRESS_AND_WORD, self.mnemonics);
        let line = format!("{number:>number_width$}  {place:place_width$}  {middle:middle_width$}  {changes}");
        line.trim_end().to_string()
    }
}
