//! Records altered at random: one agrees exactly where a replay on the independent emulator does.

use super::trial::good;
use super::Checked;
use crate::folder::Folder;
use desk::chip::device::Device;
use desk::chip::event::Event;
use desk::chip::machine::Machine;
use desk::scripts::reader::read_text;
use desk::scripts::statement::{Action, Fill};
use random::Random;

const OUT: u32 = 5;

/// A replay of a record, up to the first thing in it that does not agree.
struct Replay {
    registers: emulator::Registers,
    images: Machine,
    last: Option<(u32, emulator::Reply)>,
    /// The last event was refused, and no `reply` has expected it.
    refused: bool,
    /// The last event sent a word, and no `sent` has said which.
    unsaid: bool,
    rated: bool,
    sent: u64,
    ended: bool,
}

impl Replay {
    fn new() -> Replay {
        let (registers, images) = (emulator::Registers::default(), Machine::default());
        Replay { registers, images, last: None, refused: false, unsaid: false, rated: false, sent: 0, ended: false }
    }

    /// Whether a statement agrees.
    fn agrees(&mut self, action: &Action) -> bool {
        let judges = matches!(action, Action::Reply { .. } | Action::Sent { .. });
        if self.refused && !judges {
            return false;
        }
        match action {
            Action::Fill(Fill { memory, from, values, .. }) => self.images.fill(*memory, *from, values),
            Action::Event(event) => return self.event(*event),
            Action::Reply { number, words, value } => return self.reply(*number, *words, *value),
            Action::Sent { word } => return self.sent(*word),
            Action::Rate { .. } => return self.sent == 0 && !std::mem::replace(&mut self.rated, true),
            Action::Sources { .. } => {}
            Action::Samples { count } => {
                self.ended = true;
                return !self.unsaid && *count == self.sent;
            }
            other => panic!("{other:?} stands in no record here"),
        }
        true
    }

    fn event(&mut self, event: Event) -> bool {
        let was_said = !self.unsaid;
        let Machine { program, rom, ram, .. } = &mut self.images;
        let reply = emulator::event(&mut self.registers, program, rom, ram.of_mut(Device::Upd77p20), event.kind, event.value);
        self.refused = reply.number != 0;
        self.unsaid = event.kind == OUT && !self.refused;
        self.last = Some((event.kind, reply));
        was_said
    }

    fn reply(&mut self, number: u32, words: Option<u32>, value: Option<u32>) -> bool {
        self.refused = false;
        let Some((_, reply)) = self.last else { return false };
        let same = |expected: Option<u32>, found: u16| expected.is_none_or(|expected| expected == u32::from(found));
        number == u32::from(reply.number) && same(words, reply.words) && same(value, reply.value)
    }

    fn sent(&mut self, word: u16) -> bool {
        self.sent += 1;
        let was_unsaid = std::mem::replace(&mut self.unsaid, false);
        was_unsaid && self.last.is_some_and(|(_, reply)| reply.value == word)
    }
}

/// Whether a record agrees by a replay on the emulator.
fn agrees(folder: &Folder, record: &str) -> bool {
    let Ok(statements) = read_text(&folder.0.join("x.record"), record.as_bytes()) else { return false };
    let mut replay = Replay::new();
    statements.iter().all(|statement| replay.agrees(&statement.action)) && replay.ended && replay.sent > 0
}

/// A record with one to three alterations.
fn altered(random: &mut Random, record: &str) -> String {
    let mut lines: Vec<String> = record.lines().map(str::to_string).collect();
    for _ in 0..=random.below(3) {
        let at = random.place(lines.len() - 1);
        match random.below(8) {
            0 => drop(lines.remove(at)),
            1 => lines.insert(at, lines[at].clone()),
            2 => lines.swap(at, at + 1),
            3 | 4 => lines[at] = with_another_number(random, &lines[at]),
            5 => lines.insert(at, random.pick(&["reply 0", "reply 10", "reply 0 value 0"]).to_string()),
            6 => lines.insert(at, random.pick(&["run 0", "run 1", "in 0", "out", "sent 0", "# a word"]).to_string()),
            _ => lines.truncate(lines.len() - random.place(12)),
        }
    }
    lines.join("\n")
}

/// A line whose last word is another number, often near the one that it was.
fn with_another_number(random: &mut Random, line: &str) -> String {
    let Some((name, number)) = line.rsplit_once(' ') else { return line.to_string() };
    match desk::numbers::parse(number) {
        Some(number) if random.flag() => format!("{name} {}", number ^ 1),
        Some(_) => format!("{name} {}", random.word()),
        None => line.to_string(),
    }
}

/// What the check says of a record by itself, whatever the lengths of the others in the call.
fn is_right(checked: &Checked) -> bool {
    checked.verdict == "agrees" || (checked.verdict == "incomplete" && checked.sentence.contains(" of the same call has "))
}

#[test]
fn altered_records_agree_where_the_independent_emulator_does() {
    let folder = Folder::with_trial();
    let mut random = Random::new(0x7720);
    let whole = good(6);
    let records: Vec<String> = (0..400).map(|_| altered(&mut random, &whole)).collect();
    let names: Vec<String> = (0..records.len()).map(|at| format!("{at}.record")).collect();
    names.iter().zip(&records).for_each(|(name, record)| folder.write(name, record));
    let mut agree = 0;
    for (record, checked) in records.iter().zip(folder.check_all(&names.join(" "))) {
        let expected = agrees(&folder, record);
        assert_eq!(is_right(&checked), expected, "{checked:?}\n{record}");
        agree += usize::from(expected);
    }
    assert!((20..200).contains(&agree), "{agree} of {} agree", records.len());
}
