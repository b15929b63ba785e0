//! One statement from the words of its line, for a chip.

use crate::chip::device::Device;
use crate::chip::event::Event;
use crate::chip::machine::Memory;
use crate::chip::registers::{self, named, Register};
use crate::fault::Fault;
use crate::images::Image;
use crate::numbers;
use crate::scripts::nearest::nearest;
use crate::scripts::statement::{Action, Fill, NAMES};
use crate::scripts::words::{Token, Words};

const FILE: &str = "the name of an Intel HEX file";
const ADDRESS: &str = "an address and a colon, as 01FH:";
const ADDRESS_OR_FILE: &str = "an address and a colon, as 01FH:, or the name of an Intel HEX file";

/// What a patch goes over; `image` has taken a preset.
const PATCHED: &str = "program, rom, ram or preset";

/// An image that a statement loads: its file, and whether it goes over what was given before.
pub struct NamedImage {
    pub image: Image,
    pub patch: bool,
    pub name: Token,
}

/// The image that a statement loads, if it is one that does; its line ends behind the file's name.
pub fn image(first: &Token, words: &mut Words) -> Result<Option<NamedImage>, Fault> {
    if first.is("data") {
        return whole(Image::Data, false, words).map(Some);
    }
    if first.is("preset") {
        return whole(Image::Preset, false, words).map(Some);
    }
    if first.is("patch") && words.peek().is_some_and(|word| word.is("preset")) {
        words.next();
        return whole(Image::Preset, true, words).map(Some);
    }
    if !first.is("program") || words.peek().is_none_or(is_address) {
        return Ok(None);
    }
    let name = words.expect(ADDRESS_OR_FILE)?;
    let is_number = !name.quoted && numbers::parse_long(&name.text).is_some();
    match is_number || words.peek().is_some() {
        true => Err(name.wrong(ADDRESS_OR_FILE)),
        false => Ok(Some(NamedImage { image: Image::Program, patch: false, name })),
    }
}

/// An image that a statement of its own loads; cells from an address on stand in another.
fn whole(image: Image, patch: bool, words: &mut Words) -> Result<NamedImage, Fault> {
    let name = words.expect(FILE)?;
    if is_address(&name) {
        let cells = image.memory().name();
        return Err(name.wrong(&format!("{FILE}; cells from an address on stand in `{}{cells}`", if patch { "patch " } else { "" })));
    }
    words.end()?;
    Ok(NamedImage { image, patch, name })
}

/// Whether a word is to be an address, and not a file.
fn is_address(token: &Token) -> bool {
    !token.quoted && token.text.ends_with(':')
}

/// The statement that begins with this word; its line ends behind it.
pub fn statement(device: Device, first: &Token, words: &mut Words) -> Result<Action, Fault> {
    let action = action(device, first, words)?;
    words.end()?;
    Ok(action)
}

fn action(device: Device, first: &Token, words: &mut Words) -> Result<Action, Fault> {
    if let Some(memory) = memory(first) {
        return fill(device, memory, false, words);
    }
    if let (Some((kind, has_value)), false) = (Event::named(&first.text), first.quoted) {
        let value = if has_value { words.number("a value")? } else { 0 };
        return Ok(Action::Event(Event { kind, value }));
    }
    match first {
        _ if first.is("chip") => chip(words),
        _ if first.is("patch") => {
            let name = words.expect(PATCHED)?;
            let memory = memory(&name).ok_or_else(|| name.wrong(PATCHED))?;
            fill(device, memory, true, words)
        }
        _ if first.is("set") => register_and_value(device, words).map(|(register, value)| Action::Set { register, value }),
        _ if first.is("event") => Ok(Action::Event(Event { kind: words.number("the kind of an event")?, value: words.number("a value")? })),
        _ if first.is("reply") => reply(words),
        _ if first.is("sent") => Ok(Action::Sent { word: words.up_to(0xffff, "the word that was sent")? as u16 }),
        _ if first.is("expect") => expect(device, words),
        _ if first.is("show") => Ok(Action::Show),
        _ if first.is("rate") => rate(words),
        _ if first.is("sources") => sources(words),
        _ if first.is("samples") => samples(words),
        _ => Err(first.wrong(&statement_meant(&first.text))),
    }
}

/// The nearest name, or all of them.
fn statement_meant(text: &str) -> String {
    match nearest(text, NAMES) {
        Some(name) => format!("a statement, perhaps {name:?}"),
        None => format!("a statement: {}", NAMES.join(", ")),
    }
}

fn memory(token: &Token) -> Option<Memory> {
    Memory::ALL.into_iter().find(|memory| token.is(memory.name()))
}

fn chip(words: &mut Words) -> Result<Action, Fault> {
    let name = words.expect("the name of a chip, 77P20 or 77C25")?;
    let device = Device::named(&name.text).filter(|_| !name.quoted);
    device.map(|device| Action::Chip { device }).ok_or_else(|| name.wrong(&chip_meant(&name.text)))
}

fn chip_meant(text: &str) -> String {
    match nearest(text, Device::ALL.map(Device::name)) {
        Some(name) => format!("the name of a chip, perhaps {name:?}"),
        None => format!("the name of a chip: {}", Device::ALL.map(Device::name).join(", ")),
    }
}

fn fill(device: Device, memory: Memory, patch: bool, words: &mut Words) -> Result<Action, Fault> {
    let length = memory.length(device);
    let expected = if memory == Memory::Program && !patch { ADDRESS_OR_FILE } else { ADDRESS };
    let address = words.expect(expected)?;
    let digits = address.text.strip_suffix(':').ok_or_else(|| address.wrong(expected))?;
    let from = numbers::parse(digits).ok_or_else(|| address.wrong(expected))? as usize;
    if from >= length {
        let larger = on_the_larger_chip(device, memory, from, |length| format!("{length:X}H"));
        return Err(address.wrong(&format!("an address below {length:X}H{larger}")));
    }
    let mut values = Vec::new();
    for token in words.by_ref() {
        let value = numbers::parse(&token.text).filter(|value| *value <= memory.largest());
        let value = value.ok_or_else(|| token.wrong(&format!("a number up to {:X}H ({})", memory.largest(), numbers::WRITTEN)))?;
        if from + values.len() >= length {
            let larger = on_the_larger_chip(device, memory, length, |length| length.to_string());
            return Err(token.wrong(&format!("nothing: {} has {length} places{larger}", memory.name())));
        }
        values.push(value);
    }
    if values.is_empty() {
        words.expect("a number")?;
    }
    Ok(Action::Fill(Fill { memory, from, values, patch }))
}

/// What is said of a place that the 77P20 has not and the 77C25 has.
fn on_the_larger_chip(device: Device, memory: Memory, place: usize, print: impl Fn(usize) -> String) -> String {
    let larger = Device::Upd77c25;
    match device != larger && place < memory.length(larger) {
        true => format!("; the {larger} has {}, behind `chip {larger}`", print(memory.length(larger))),
        false => String::new(),
    }
}

fn register_and_value(device: Device, words: &mut Words) -> Result<(&'static Register, u16), Fault> {
    let name = words.expect("the name of a register")?;
    let register = named(device, &name.text).ok_or_else(|| name.wrong(&register_meant(device, &name.text)))?;
    let value = words.up_to(u32::from(register.largest), "a value")?;
    Ok((register, value as u16))
}

fn register_meant(device: Device, text: &str) -> String {
    let names = || registers::of(device).map(|register| register.name);
    if let Some(other) = Device::ALL.into_iter().find(|other| named(*other, text).is_some()) {
        return format!("a register of the {device}; it is one of the {other}, behind `chip {other}`");
    }
    match nearest(text, names()) {
        Some(name) => format!("the name of a register, perhaps {name:?}"),
        None => format!("the name of a register: {}", names().collect::<Vec<&str>>().join(", ")),
    }
}

fn reply(words: &mut Words) -> Result<Action, Fault> {
    let number = words.number("the number of a reply")?;
    let (mut done, mut value) = (None, None);
    while let Some(token) = words.next() {
        let place = match () {
            () if token.is("words") && done.is_none() => &mut done,
            () if token.is("value") && value.is_none() => &mut value,
            () => return Err(token.wrong("`words` or `value`, each once")),
        };
        *place = Some(words.number("a number")?);
    }
    Ok(Action::Reply { number, words: done, value })
}

fn expect(device: Device, words: &mut Words) -> Result<Action, Fault> {
    if words.peek().is_some_and(|token| token.is("ram")) {
        words.next();
        let cell = words.up_to(device.ram() as u32 - 1, "a RAM address")? as usize;
        return Ok(Action::ExpectRam { cell, value: words.up_to(0xffff, "a value")? as u16 });
    }
    let (register, value) = register_and_value(device, words)?;
    Ok(Action::Expect { register, value })
}

fn rate(words: &mut Words) -> Result<Action, Fault> {
    let token = words.peek().cloned();
    match (words.number("samples a second")?, token) {
        (0, Some(token)) => Err(token.wrong("samples a second, at least 1")),
        (hertz, _) => Ok(Action::Rate { hertz }),
    }
}

fn sources(words: &mut Words) -> Result<Action, Fault> {
    let mut names = vec![words.expect("the names of the sources")?.text];
    for token in words.by_ref() {
        names.push(token.text);
    }
    Ok(Action::Sources { names })
}

fn samples(words: &mut Words) -> Result<Action, Fault> {
    let token = words.expect("how many samples were sent")?;
    let count = numbers::parse_long(&token.text);
    let count = count.ok_or_else(|| token.wrong(&format!("how many samples were sent ({})", numbers::WRITTEN)))?;
    Ok(Action::Samples { count })
}
