//! The programs' words: those of the 77P20 as they are measured, those of the 77C25 the same fields at that chip's places.

use emulator::{event_on, take_apart_on, Chip, CodeFields, JpFields, Registers, Word};
use speed::programs::{self, Program};

const MIXING_LOOP: [u32; 15] = [
    0x600004, 0x601fe5, 0x098010, 0x09c020, 0x0011fb, 0x1ac030, 0x138030, 0x4b0090, 0x500040, 0x4980b0, 0x000071, 0x000219, 0x00101f,
    0x00002f, 0x500000,
];

const BIQUAD: [u32; 19] = [
    0x603fe5, 0x600004, 0x058000, 0x540080, 0x048000, 0x500000, 0x000000, 0x000000, 0x09811b, 0x1281fb, 0x1282d2, 0x1281fb, 0x12816d,
    0x4980f0, 0x000071, 0x128213, 0x0001fb, 0x12823f, 0x32822f,
];

const JUMPS: [u32; 17] = [
    0x048000, 0x488030, 0x500000, 0x4a2050, 0x500060, 0x540100, 0x04c000, 0x48c090, 0x500000, 0x4800b0, 0x5000b0, 0x4840d0, 0x5000d0,
    0x4b0000, 0x500000, 0x000000, 0x200000,
];

const ALONE: [u32; 7] = [0x600004, 0x0000d3, 0x4a6000, 0x000000, 0x058000, 0x128000, 0x1281fb];

fn every(chip: Chip) -> Vec<Program> {
    programs::loops(chip).into_iter().chain(programs::alone(chip)).collect()
}

#[test]
fn the_words_of_the_77p20_are_those_that_are_measured() {
    let words = |begin: &[u32], rest: u32| [begin, &vec![rest; 512 - begin.len()]].concat();
    let mut expected = vec![words(&MIXING_LOOP, 0), words(&BIQUAD, 0), words(&JUMPS, 0)];
    expected.extend(ALONE.map(|word| words(&[], word)));
    let found: Vec<Vec<u32>> = every(Chip::Upd77p20).into_iter().map(|program| program.words).collect();
    assert_eq!(found, expected);
}

/// The data ROM and the RAM by the 77P20's limits: cells of 13 bits.
#[test]
fn cells_are_as_wide_as_the_chips() {
    for (chip, cells, ram, widest) in [(Chip::Upd77p20, 512, 128, 0x1fff), (Chip::Upd77c25, 1024, 256, 0xffff)] {
        for Program { rom, ram: lent, .. } in every(chip) {
            assert_eq!((rom.len(), lent.len()), (cells, ram));
            assert_eq!(rom.iter().fold(0, |all, cell| all | cell), widest);
        }
    }
}

#[test]
fn the_words_of_the_77c25_have_the_same_fields() {
    for (small, large) in every(Chip::Upd77p20).into_iter().zip(every(Chip::Upd77c25)) {
        assert_eq!((small.name, large.words.len()), (large.name, 2048));
        for (small, large) in small.words.into_iter().zip(large.words) {
            let (small, large) = (take_apart_on(Chip::Upd77p20, small), take_apart_on(Chip::Upd77c25, large));
            match (small, large) {
                (Ok(Word::Jp(JpFields { brch, cnd, na, .. })), Ok(Word::JpCode(jump))) => {
                    assert_eq!(jump, CodeFields { code: u16::from(brch) * 64 + u16::from(cnd) * 2, na, spare: 0 });
                }
                (small, large) => assert_eq!(small, large),
            }
        }
    }
}

#[test]
fn the_jump_untaken_is_not_taken() {
    for chip in [Chip::Upd77p20, Chip::Upd77c25] {
        let found = programs::alone(chip).into_iter().find(|program| program.name == "jump untaken");
        let Program { words, rom, mut ram, .. } = found.expect("a jump");
        let mut registers = Registers::default();
        assert_eq!(event_on(chip, &mut registers, &words, &rom, &mut ram, 0, 3).number, 0);
        assert_eq!(registers.pc, 3);
    }
}
