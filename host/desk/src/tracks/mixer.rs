//! A program that mixes, one sample at a time: a word in for each source, which the program takes, and a word that it sends.

use crate::chip::event::meaning;
use crate::chip::machine::Machine;
use crate::chip::serial::stores_so;
use crate::chip::wrong_chip;
use crate::numbers;
use crate::tracks::stops::Stops;
use bemulatsho::kind;
use std::fmt;

/// Most words in for one sample.
pub const MOST_SOURCES: usize = 16;

/// A program that has not taken or sent a sample after so many words is not going to.
const PATIENCE: u32 = 65535;

pub struct Mixer {
    pub machine: Machine,
    /// Words that each leg of the last sample took: one for each source until it was taken, and one until the word was sent.
    legs: Vec<u32>,
    /// What each leg runs on.
    stops: Vec<Stops>,
}

impl Mixer {
    pub fn new(machine: Machine, sources: usize) -> Mixer {
        let stops = (0..=sources).map(|_| Stops::of(&machine)).collect();
        Mixer { machine, legs: vec![0; sources + 1], stops }
    }

    /// One sample of all sources; the word that is sent for it.
    #[inline]
    pub fn sample(&mut self, inputs: &[i16]) -> Result<i16, (Leg, Halt)> {
        for (leg, input) in inputs.iter().enumerate() {
            let taken = self.done(kind::SERIAL_IN, u32::from(*input as u16)).and_then(|_| self.leg(leg, Waiting::Taken));
            taken.map_err(|halt| (Leg::Source(leg), halt))?;
        }
        let sent = self.leg(inputs.len(), Waiting::Sent).and_then(|()| self.done(kind::SERIAL_OUT, 0));
        sent.map(|word| word as i16).map_err(|halt| (Leg::Sending, halt))
    }

    /// How many words each leg of the last sample took.
    pub fn legs(&self) -> &[u32] {
        &self.legs
    }

    /// Runs until the program has taken or sent a word, by the fewest words. Only a word that reads SI clears SIACK and only one that stores SO
    /// sets SORQ: a run ends before each of them, or right behind the one that is let run.
    #[inline]
    fn leg(&mut self, leg: usize, waiting: Waiting) -> Result<(), Halt> {
        let mut words = 0;
        while !waiting.is_over(&self.machine) {
            words += u32::from(self.machine.run_on(self.stops[leg].image(), PATIENCE - words).words);
            if waiting.is_over(&self.machine) {
                break;
            }
            if words == PATIENCE {
                return Err(Halt::Waited(waiting));
            }
            self.one_word(leg, waiting)?;
            words += 1;
        }
        self.legs[leg] = words;
        Ok(())
    }

    /// Runs the word before which a run ended, as it stands in the program.
    #[cold]
    fn one_word(&mut self, leg: usize, waiting: Waiting) -> Result<(), Halt> {
        let (place, word) = (usize::from(self.machine.pc()), self.machine.word_at_pc());
        let sends = stores_so(self.machine.device(), word);
        if self.machine.held.registers.sorq && sends {
            return Err(Halt::Lost);
        }
        self.done(kind::RUN, 1)?;
        // A word that also sends is asked each time whether what it sends is lost.
        if waiting.is_over(&self.machine) && (waiting == Waiting::Sent || !sends) {
            self.stops[leg].expect(&self.machine.program, place);
        }
        Ok(())
    }

    /// An event's value, if it was not refused.
    #[inline]
    fn done(&mut self, kind: u32, value: u32) -> Result<u16, Halt> {
        let reply = self.machine.event(kind, value);
        if reply.number == 0 {
            Ok(reply.value)
        } else {
            Err(Halt::Refused(reply.number))
        }
    }
}

/// Which part of a sample did not go through.
#[derive(Clone, Copy, Debug, PartialEq, Eq)]
pub enum Leg {
    Source(usize),
    Sending,
}

/// What the program is to do next.
#[derive(Clone, Copy, Debug, PartialEq, Eq)]
pub enum Waiting {
    Taken,
    Sent,
}

impl Waiting {
    fn is_over(self, machine: &Machine) -> bool {
        match self {
            Waiting::Taken => !machine.held.registers.siack,
            Waiting::Sent => machine.held.registers.sorq,
        }
    }
}

impl fmt::Display for Waiting {
    fn fmt(&self, f: &mut fmt::Formatter) -> fmt::Result {
        f.write_str(match self {
            Waiting::Taken => "taken",
            Waiting::Sent => "sent",
        })
    }
}

/// Why a mix does not go on.
#[derive(Clone, Copy, Debug, PartialEq, Eq)]
pub enum Halt {
    Refused(u8),
    Waited(Waiting),
    /// A word that was sent would be lost under the next. A program for fewer sources than are given comes to this.
    Lost,
}

impl Halt {
    pub fn told(&self, machine: &Machine) -> String {
        let pc = numbers::address(machine.pc());
        match self {
            Halt::Refused(number) => {
                let perhaps = wrong_chip::perhaps(machine, *number).unwrap_or_default();
                format!("refusal {number} at PC {pc}: {}{perhaps}", meaning(machine.device(), *number))
            }
            Halt::Waited(waiting) => format!("the program has not {waiting} a sample within {PATIENCE} words; PC is {pc}"),
            Halt::Lost => format!("the program sends a second word at PC {pc}: expected one for each sample of all sources"),
        }
    }
}

#[cfg(test)]
mod tests {
    use super::*;
    use crate::chip::device::Device;
    use crate::chip::machine::Memory;
    use bemulatsho::upd77c25::{self, CodeFields};
    use bemulatsho::{JpFields, LdiFields, OpFields, Word};
    use random::Random;

    /// A leg as it is defined: word by word until it is over.
    fn word_by_word(machine: &mut Machine, waiting: Waiting) -> Result<u32, Halt> {
        for words in 0..PATIENCE {
            if waiting.is_over(machine) {
                return Ok(words);
            }
            if machine.held.registers.sorq && stores_so(machine.device(), machine.word_at_pc()) {
                return Err(Halt::Lost);
            }
            let reply = machine.event(kind::RUN, 1);
            if reply.number != 0 {
                return Err(Halt::Refused(reply.number));
            }
        }
        if waiting.is_over(machine) {
            return Ok(PATIENCE);
        }
        Err(Halt::Waited(waiting))
    }

    fn sample_word_by_word(machine: &mut Machine, inputs: &[i16], legs: &mut [u32]) -> Result<i16, (Leg, Halt)> {
        let given = |machine: &mut Machine, kind, value| match machine.event(kind, value) {
            reply if reply.number == 0 => Ok(reply.value),
            reply => Err(Halt::Refused(reply.number)),
        };
        for (at, input) in inputs.iter().enumerate() {
            let taken = given(machine, kind::SERIAL_IN, u32::from(*input as u16)).and_then(|_| word_by_word(machine, Waiting::Taken));
            legs[at] = taken.map_err(|halt| (Leg::Source(at), halt))?;
        }
        let sent = word_by_word(machine, Waiting::Sent).and_then(|words| {
            legs[inputs.len()] = words;
            given(machine, kind::SERIAL_OUT, 0)
        });
        sent.map(|word| word as i16).map_err(|halt| (Leg::Sending, halt))
    }

    /// A word of a small program: many take or send a sample or do both at once, some jump, call or return, and a few are refused.
    fn word(device: Device, random: &mut Random, length: u32) -> u32 {
        let (src, dst) = random.pick(&[(11, 1), (12, 3), (11, 15), (1, 8), (3, 9), (15, 9), (11, 9), (1, 3), (3, 1)]);
        let (psel, alu, asl, dpl) = (random.below(4) as u8, random.below(16) as u8, random.below(2) as u8, random.below(4) as u8);
        let fields = OpFields { psel, alu, asl, dpl, src, dst, ..OpFields::default() };
        match random.below(20) {
            0 => 1 << device.word_bits(),
            1 | 2 => built(device, Word::Rt(fields)),
            3 => built(device, Word::Ldi(LdiFields { id: random.word(), dst, ..LdiFields::default() })),
            4..=9 => jump(device, random.pick(&[0b100, 0b101, 0b010, 0b010, 0b010]), random.below(32) as u8, random.below(length) as u16),
            _ => built(device, Word::Op(fields)),
        }
    }

    /// A jump looks at its condition only where BRCH says so.
    fn jump(device: Device, brch: u8, cnd: u8, na: u16) -> u32 {
        let cnd = if brch == 0b010 { cnd } else { 0 };
        built(device, Word::Jp(JpFields { brch, cnd, na, ..JpFields::default() }))
    }

    /// The same word of either chip.
    fn built(device: Device, word: Word) -> u32 {
        let bits = match (device, word) {
            (Device::Upd77p20, word) => bemulatsho::build(&word),
            (Device::Upd77c25, Word::Op(fields)) => upd77c25::build(&upd77c25::Word::Op(fields)),
            (Device::Upd77c25, Word::Rt(fields)) => upd77c25::build(&upd77c25::Word::Rt(fields)),
            (Device::Upd77c25, Word::Ldi(fields)) => upd77c25::build(&upd77c25::Word::Ldi(fields)),
            (Device::Upd77c25, Word::Jp(JpFields { brch, cnd, na, spare })) => {
                let code = u16::from(brch) << 6 | u16::from(cnd) << 1;
                upd77c25::build(&upd77c25::Word::Jp(CodeFields { code, na, spare }))
            }
        };
        bits.expect("fields that fit")
    }

    #[test]
    fn a_mix_is_what_single_words_make() {
        for device in Device::ALL {
            let ended = mixed(device);
            assert!(ended.iter().all(|count| *count > 25), "every way to end came up on the {device}: {ended:?}");
        }
    }

    /// Mixes by many small programs; how many samples were sent, and how many mixes ended with each halt.
    fn mixed(device: Device) -> [u32; 4] {
        let mut random = Random::new(4);
        let mut ended = [0; 4];
        for _ in 0..1000 {
            let length = 2 + random.below(14);
            let mut machine = Machine::new(device);
            let mut words: Vec<u32> = (0..length).map(|_| word(device, &mut random, length)).collect();
            if random.one_in(3) {
                words[0] = jump(device, 0b101, 0, length as u16 - 1);
                words[length as usize - 1] = built(device, Word::Rt(OpFields { src: 11, dst: 1, ..OpFields::default() }));
            }
            machine.fill(Memory::Program, 0, &words);
            // PC goes round: the last word of the program is before the first.
            machine.fill(Memory::Program, device.words() - 1, &words[1..2]);
            let registers = &mut machine.held.registers;
            (registers.siack, registers.sorq) = (random.one_in(4), random.one_in(4));
            registers.pc = random.pick(&[0, device.words() as u16 - 1]);
            let sources = 1 + random.place(3);
            let (mut mixer, mut plain, mut legs) = (Mixer::new(machine.clone(), sources), machine, vec![0; sources + 1]);
            for _ in 0..20 {
                let inputs: Vec<i16> = (0..sources).map(|_| random.word() as i16).collect();
                let expected = sample_word_by_word(&mut plain, &inputs, &mut legs);
                assert_eq!(mixer.sample(&inputs), expected, "{words:X?}");
                assert!(mixer.machine.held == plain.held && mixer.machine.cells() == plain.cells(), "{words:X?}");
                match expected {
                    Ok(_) => ended[0] += 1,
                    Err((_, Halt::Refused(_))) => ended[1] += 1,
                    Err((_, Halt::Waited(_))) => ended[2] += 1,
                    Err((_, Halt::Lost)) => ended[3] += 1,
                }
                if expected.is_err() {
                    break;
                }
                assert_eq!(mixer.legs(), legs, "{words:X?}");
            }
        }
        ended
    }
}
