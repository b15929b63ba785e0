//! Random machines of either chip and sequences of events: the proved core against the emulator after every event.

use crate::chip_values::ChipValues;
use crate::coverage::Coverage;
use crate::pair::{Difference, Pair};
use crate::programs;
use crate::states;
use emulator::{Chip, Reply, Sizes};
use random::Random;

/// Events of one machine; then another is made.
const EVENTS: u32 = 200;

/// An event that the two answered differently, and the seed of its machine.
pub struct Failure {
    pub seed: u64,
    pub event: u32,
    pub difference: Box<Difference>,
}

/// One event: its kind and value, one in fifty of them not allowed.
fn event(random: &mut Random) -> (u32, u32) {
    if random.one_in(50) {
        return match random.below(4) {
            0 => (8 + random.below(1000), 0),
            1 => (random.pick(&[1, 3, 5, 6, 7]), 1 + random.below(70000)),
            2 => (2, 256 + random.below(70000)),
            _ => (random.pick(&[0, 4]), 65536 + random.below(70000)),
        };
    }
    match random.below(20) {
        0..=9 => (0, words(random)),
        10..=11 => (1, 0),
        12..=13 => (2, random.below(256)),
        14 => (3, 0),
        15 => (4, u32::from(random.register())),
        16..=17 => (5, 0),
        18 => (6, 0),
        _ if random.one_in(4) => (7, 0),
        _ => (0, 1),
    }
}

fn words(random: &mut Random) -> u32 {
    match random.below(100) {
        0 => random.below(600),
        1..=9 => random.below(60),
        _ => random.below(9),
    }
}

/// A call whose program, data ROM or RAM has another length.
fn with_a_wrong_length(chip: Chip, random: &mut Random, pair: &Pair) -> Pair {
    let Sizes { words, cells, ram, .. } = chip.sizes();
    let mut short = pair.clone();
    let length = |random: &mut Random, right: usize| match random.below(4) {
        0 => 0,
        1 => right - 1,
        2 => right + 1,
        _ => random.place(2 * right),
    };
    match random.below(3) {
        0 => short.program.resize(length(random, words), 0),
        1 => short.rom.resize(length(random, cells), 0),
        _ => short.ram.resize(length(random, ram), 0),
    }
    short
}

/// The words of a run as the emulator does them, one by one.
fn trace(chip: Chip, coverage: &mut Coverage, pair: &Pair, words: u32) {
    let (mut registers, mut ram) = (pair.registers, pair.ram.clone());
    for _ in 0..words {
        let before = registers;
        let Ok(word) = emulator::take_apart_on(chip, pair.program[usize::from(before.pc)]) else { return };
        if let Err(number) = emulator::step_on(chip, &mut registers, &pair.program, &pair.rom, &mut ram) {
            coverage.refused(&word, number);
            return;
        }
        coverage.word(&word, &before, &registers);
    }
}

/// One machine and its events.
fn machine(chip: Chip, seed: u64, coverage: &mut Coverage) -> Result<u64, Failure> {
    let mut random = Random::new(seed);
    let registers = states::fitting_registers(chip, &mut random);
    let program = programs::program(chip, &mut random);
    let mut pair = Pair::lent(chip, registers, program, states::rom(chip, &mut random), states::ram(chip, &mut random));
    for count in 0..EVENTS {
        let (kind, value) = event(&mut random);
        let before = pair.registers;
        let failure = |difference| Failure { seed, event: count, difference };
        let reply = if random.one_in(40) {
            pair.registers = states::damaged(chip, &mut random, &before);
            let reply = pair.event(kind, value).map_err(failure)?;
            pair.registers = before;
            reply
        } else if random.one_in(40) {
            with_a_wrong_length(chip, &mut random, &pair).event(kind, value).map_err(failure)?
        } else {
            if kind == 0 && random.one_in(4) {
                trace(chip, coverage, &pair, value.min(65535));
            }
            pair.event(kind, value).map_err(failure)?
        };
        coverage.reply(kind, &before, reply.number);
        unstick(chip, &mut random, &mut pair, &reply);
    }
    Ok(u64::from(EVENTS))
}

/// A refused word would be refused again: the caller may change its record between calls, and does.
fn unstick(chip: Chip, random: &mut Random, pair: &mut Pair, reply: &Reply) {
    if matches!(reply.number, 4..=9 | 18) {
        let fresh = states::fitting_registers(chip, random);
        pair.registers.pc = fresh.pc;
        pair.registers.depth = fresh.depth;
        pair.registers.rp = fresh.rp;
    }
}

/// So many events on machines of consecutive seeds.
pub fn compare(chip: Chip, first_seed: u64, events: u64, coverage: &mut Coverage, progress: impl Fn(u64)) -> Result<u64, Failure> {
    let mut done = 0;
    let mut seed = first_seed;
    while done < events {
        done += machine(chip, seed, coverage)?;
        seed += 1;
        progress(done);
    }
    Ok(done)
}
