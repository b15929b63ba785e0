//! Events of both chips: record, images and RAM at a guard each; damaged records and wrong lengths are lent too.

use crate::chips::{Chip, Upd77c25, Upd77p20};
use crate::pages::{Guard, Guarded};
use bemulatsho::Registers;
use random::Random;

fn flags(bits: u64) -> bemulatsho::Flags {
    let flag = |place: u32| bits >> place & 1 == 1;
    bemulatsho::Flags { s1: flag(0), s0: flag(1), c: flag(2), z: flag(3), ov1: flag(4), ov0: flag(5) }
}

/// A record that fits, or one of any numbers at all.
fn record<C: Chip>(random: &mut Random, fits: bool) -> C::Record {
    let pointer = |random: &mut Random, limit: usize| if fits { random.place(limit) as u16 } else { random.word() };
    let registers = Registers {
        pc: pointer(random, C::WORDS),
        stack: std::array::from_fn(|_| pointer(random, C::WORDS)),
        flags: bemulatsho::BothFlags { a: flags(random.next()), b: flags(random.next()) },
        si: random.word(),
        siack: random.flag(),
        depth: pointer(random, 5) as u8,
        a: random.word(),
        b: random.word(),
        k: random.word(),
        l: random.word(),
        tr: random.word(),
        dr: random.word(),
        so: random.word(),
        dp: pointer(random, C::RAM),
        rp: pointer(random, C::CELLS),
        sr: random.word() & if fits { 0xff83 } else { 0xffff },
        soack: random.flag(),
        sorq: random.flag(),
    };
    C::record(registers, random)
}

/// The right length, none, one less, one more, or any.
fn length(random: &mut Random, right: usize) -> usize {
    match random.below(5) {
        0 => right,
        1 => 0,
        2 => right - 1,
        3 => right + 1,
        _ => random.place(2 * right),
    }
}

/// A word: one in eight of all bits, four of the chip's, three of a jump or a call.
fn word<C: Chip>(random: &mut Random) -> u32 {
    random.next() as u32 & C::BITS[random.pick(&[0, 1, 1, 1, 1, 2, 2, 2])]
}

fn nothing_outside<C: Chip>(guard: Guard) {
    let mut random = Random::new(0x7720);
    let (mut records, mut programs, mut roms, mut rams) = (Guarded::new(), Guarded::new(), Guarded::new(), Guarded::new());
    let mut numbers = [0u32; 19];
    for turn in 0..200_000 {
        let wrong_lengths = turn % 8 == 0;
        let mut length = |right: usize| if wrong_lengths { length(&mut random, right) } else { right };
        let (words, cells, ram_cells) = (length(C::WORDS), length(C::CELLS), length(C::RAM));
        let program = programs.slice::<u32>(guard, words);
        let rom = roms.slice::<u16>(guard, cells);
        let ram = rams.slice::<u16>(guard, ram_cells);
        for _ in 0..8 {
            if let Some(place) = program.get_mut(random.place(words)) {
                *place = word::<C>(&mut random);
            }
            if let Some(cell) = rom.get_mut(random.place(cells)) {
                *cell = random.word();
            }
            if let Some(cell) = ram.get_mut(random.place(ram_cells)) {
                *cell = random.word();
            }
        }
        let registers = &mut records.slice::<C::Record>(guard, 1)[0];
        *registers = record::<C>(&mut random, turn % 4 != 1);
        let (kind, value) = (random.below(9), random.below(40));
        let reply = C::event(registers, program, rom, ram, kind, if kind == 0 || kind == 2 || kind == 4 { value } else { 0 });
        numbers[usize::from(reply.number)] += 1;
        assert!(reply.number == 0 || reply.value == 0);
    }
    let given: Vec<u8> = (0..19).filter(|number| numbers[usize::from(*number)] > 0).collect();
    assert_eq!(given, C::NUMBERS, "{numbers:?}");
}

#[test]
fn nothing_is_touched_behind_what_was_lent() {
    nothing_outside::<Upd77p20>(Guard::After);
}

#[test]
fn nothing_is_touched_before_what_was_lent() {
    nothing_outside::<Upd77p20>(Guard::Before);
}

#[test]
fn nothing_is_touched_behind_what_was_lent_to_the_77c25() {
    nothing_outside::<Upd77c25>(Guard::After);
}

#[test]
fn nothing_is_touched_before_what_was_lent_to_the_77c25() {
    nothing_outside::<Upd77c25>(Guard::Before);
}
