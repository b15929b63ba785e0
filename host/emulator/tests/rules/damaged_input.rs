//! Any lengths, registers, words, cells, kinds and values: a reply comes, and it is one that the paper knows.

use crate::fitting_registers::fitting_registers;
use emulator::{event, Registers, Reply};
use random::Random;
use std::collections::BTreeSet;

const CALLS: usize = 400_000;

/// Room for images that are too long.
const ROOM: usize = 520;

/// Mostly the right length, now and then any.
fn length(random: &mut Random, right: usize) -> usize {
    match random.below(40) {
        0 => random.place(ROOM + 1),
        1 => right + 1,
        2 => right - 1,
        _ => right,
    }
}

/// Registers that fit, now and then with one that may not.
fn registers(random: &mut Random) -> Registers {
    let mut r = fitting_registers(random);
    if random.one_in(4) {
        match random.below(6) {
            0 => r.pc = random.word(),
            1 => r.stack[random.place(4)] = random.word(),
            2 => r.depth = random.word() as u8,
            3 => r.dp = random.word(),
            4 => r.rp = random.word(),
            _ => r.sr = random.word(),
        }
    }
    r
}

fn kind(random: &mut Random) -> u32 {
    match random.below(20) {
        0 => random.next() as u32,
        1..=8 => 0,
        _ => random.below(9),
    }
}

fn value(random: &mut Random) -> u32 {
    match random.below(200) {
        0..=9 => random.next() as u32,
        10 => random.below(65536),
        11..=30 => random.below(300),
        31..=120 => 0,
        _ => random.below(12),
    }
}

/// Refusal 2, by the numbers of the paper.
fn fits(r: &Registers) -> bool {
    let narrow = r.pc <= 511 && r.stack.iter().all(|&cell| cell <= 511) && r.dp <= 127 && r.rp <= 511;
    narrow && r.depth <= 4 && r.sr & 0b0111_1100 == 0
}

fn allowed(kind: u32, value: u32) -> bool {
    match kind {
        0 | 4 => value <= 65535,
        2 => value <= 255,
        1 | 3 | 5 | 6 | 7 => value == 0,
        _ => false,
    }
}

#[test]
fn every_call_is_answered() {
    let mut random = Random::new(77);
    let mut program = [0_u32; ROOM];
    let mut rom = [0_u16; ROOM];
    let mut ram = [0_u16; ROOM];
    let mut seen = BTreeSet::new();
    for call in 0..CALLS {
        if call % 500 == 0 {
            let wide = random.flag();
            program.fill_with(|| random.below(if wide { 1 << 24 } else { 1 << 23 }));
            rom.fill_with(|| random.word() >> if wide { 2 } else { 3 });
            ram.fill_with(|| random.word());
        }
        program[random.place(ROOM)] = random.next() as u32;
        rom[random.place(ROOM)] = random.word();

        let (words, cells, ram_cells) = (length(&mut random, 512), length(&mut random, 512), length(&mut random, 128));
        let before = registers(&mut random);
        let ram_before = ram;
        let (kind, value) = (kind(&mut random), value(&mut random));
        let mut after = before;
        let reply = event(&mut after, &program[..words], &rom[..cells], &mut ram[..ram_cells], kind, value);
        seen.insert(reply.number);

        let of_the_whole_call = match () {
            _ if (words, cells, ram_cells) != (512, 512, 128) => 1,
            _ if !fits(&before) => 2,
            _ if !allowed(kind, value) => 3,
            _ => 0,
        };
        if of_the_whole_call != 0 {
            assert_eq!(reply, Reply { number: of_the_whole_call, words: 0, value: 0 });
            assert_eq!(after, before);
            assert_eq!(ram, ram_before);
            continue;
        }
        assert!(fits(&after));
        match kind {
            0 => assert!(matches!(reply.number, 0 | 4..=9 | 18)),
            5 => assert!(matches!(reply.number, 0 | 10)),
            6 => assert!(matches!(reply.number, 0 | 9)),
            _ => assert_eq!(reply.number, 0),
        }
        match (kind, reply.number) {
            (0, 0) => assert_eq!(u32::from(reply.words), value),
            (0, _) => assert!(u32::from(reply.words) < value),
            (6, 0) if before.sr & 0x0080 != 0 => assert_eq!(reply.words, 2),
            _ => assert_eq!(reply.words, 0),
        }
        if reply.number != 0 || !matches!(kind, 1 | 3 | 5) {
            assert_eq!(reply.value, 0);
        }
        if reply.number != 0 && reply.words == 0 {
            assert_eq!(after, before);
        }
        if kind != 0 || (reply.number != 0 && reply.words == 0) {
            assert_eq!(ram, ram_before);
        }
    }
    assert!(seen.into_iter().eq((0..=10).chain([18])));
}
