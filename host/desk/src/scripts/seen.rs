//! What no single statement shows: which chip the others are for, that no place of an image is given twice, unless by a patch, and that
//! nothing follows the end of a record.

use crate::chip::device::Device;
use crate::chip::machine::Memory;
use crate::chip::registers::Register;
use crate::fault::{Fault, Place};
use crate::images::larger_chip;
use crate::scripts::statement::{Action, Fill, Statement};
use std::collections::HashMap;

#[derive(Default)]
pub struct Seen {
    /// The chip that was said, and where.
    chip: Option<(Device, Place)>,
    /// The first statement that depends on the chip.
    first: Option<(&'static str, Place)>,
    /// The first image that no statement names, and which memory it fills.
    image: Option<(Memory, Place)>,
    /// Where each place of an image or the RAM was given.
    given: HashMap<(Memory, usize), Place>,
    /// Where the record ended.
    ended: Option<Place>,
}

impl Seen {
    pub fn see(&mut self, action: &Action, place: Place) -> Result<(), Fault> {
        self.not_ended(place)?;
        if depends_on_the_chip(action) {
            self.first.get_or_insert((action.name(), place));
        }
        match action {
            Action::Chip { device } => self.chip(*device, place)?,
            Action::Fill(fill) => {
                self.fits(fill, place)?;
                self.given(fill, place)?;
            }
            Action::Set { register, .. } | Action::Expect { register, .. } => self.has(register, place)?,
            Action::ExpectRam { cell, .. } => self.reaches(Memory::Ram, *cell, place)?,
            Action::Samples { .. } => self.ended = Some(place),
            _ => {}
        }
        Ok(())
    }

    /// Sees an image that no statement names.
    pub fn see_image(&mut self, image: &Statement) -> Result<(), Fault> {
        let (Action::Fill(fill), place) = (&image.action, image.place) else { return Ok(()) };
        self.not_ended(place)?;
        if let Some(said) = self.larger_chip() {
            return Err(Fault::bad_at(place, format!("behind {said}: {}", larger_chip::refused(fill.memory))));
        }
        self.image.get_or_insert((fill.memory, place));
        self.given(fill, place)
    }

    /// The chip of the statements that come.
    pub fn device(&self) -> Device {
        self.chip.map_or(Device::default(), |(device, _)| device)
    }

    /// The statement that says that the chip is the larger one, if there was one.
    pub fn larger_chip(&self) -> Option<String> {
        match self.chip {
            Some((device @ Device::Upd77c25, said)) => Some(format!("the `chip {device}` at {said}")),
            _ => None,
        }
    }

    pub fn not_ended(&self, place: Place) -> Result<(), Fault> {
        match self.ended {
            Some(ended) => Err(Fault::bad_at(place, format!("a statement: expected nothing after the `samples` at {ended}"))),
            None => Ok(()),
        }
    }

    fn chip(&mut self, device: Device, place: Place) -> Result<(), Fault> {
        if let Some((before, said)) = self.chip.replace((device, place)) {
            return Err(Fault::bad_at(place, format!("`chip {device}`: expected once; `chip {before}` stands at {said}")));
        }
        if let Some((name, first)) = self.first {
            let message = format!("`chip {device}`: expected before all that depends on it; a `{name}` stands at {first}");
            return Err(Fault::bad_at(place, message));
        }
        match (device, self.image) {
            (Device::Upd77c25, Some((memory, image))) => {
                Err(Fault::bad_at(place, format!("`chip {device}` behind {image}: {}", larger_chip::refused(memory))))
            }
            _ => Ok(()),
        }
    }

    /// Whether all places are there. A text's parser has seen to it; a compact record's does not know the chip.
    fn fits(&self, fill: &Fill, place: Place) -> Result<(), Fault> {
        let last = fill.from + fill.values.len().saturating_sub(1);
        self.reaches(fill.memory, last, place)
    }

    fn reaches(&self, memory: Memory, last: usize, place: Place) -> Result<(), Fault> {
        let (name, device, length) = (memory.name(), self.device(), memory.length(self.device()));
        match last < length {
            true => Ok(()),
            false => Err(Fault::bad_at(place, format!("{name} {last:03X}H: expected an address below {length:X}H on the {device}"))),
        }
    }

    fn has(&self, register: &Register, place: Place) -> Result<(), Fault> {
        match register.devices.contains(&self.device()) {
            true => Ok(()),
            false => Err(Fault::bad_at(place, format!("{}: expected a register of the {}", register.name, self.device()))),
        }
    }

    fn given(&mut self, fill: &Fill, place: Place) -> Result<(), Fault> {
        let Fill { memory, from, values, patch } = fill;
        for at in *from..from + values.len() {
            let before = self.given.insert((*memory, at), place);
            if let (Some(before), false) = (before, *patch) {
                let name = memory.name();
                let preset = if fill.is_preset() && self.device() == Device::Upd77p20 { " or `patch preset`" } else { "" };
                let message = format!("{name} {at:03X}H was given before, at {before}: expected each once, or `patch {name}`{preset}");
                return Err(Fault::bad_at(place, message));
            }
        }
        Ok(())
    }
}

/// What is the same on both chips may stand before it is said which it is.
fn depends_on_the_chip(action: &Action) -> bool {
    !matches!(action, Action::Chip { .. } | Action::Rate { .. } | Action::Sources { .. } | Action::Samples { .. })
}
