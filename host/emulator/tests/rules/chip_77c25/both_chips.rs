//! What the two chips have in common: a word put together for either does the same on both, where its state fits both.

use super::assemble as c25;
use super::machine::C25;
use crate::assemble::{self as p20, dst, src, Op, CALL, JUMP, JUMP_ON_CONDITION};
use crate::fitting_registers::fitting_registers;
use emulator::{event, event_on};
use random::Random;

/// The same OP, RT, JP or LDI word for either chip; none with source 0 or destination 14.
fn word(random: &mut Random) -> (u32, u32) {
    let cnd = random.below(32);
    let (brch, cnd) = random.pick(&[(JUMP, 0), (CALL, 0), (JUMP_ON_CONDITION, cnd)]);
    let na = random.below(512);
    let dst = random.pick(&[0, 1, 2, 3, 4, 5, 6, 7, 8, 9, 10, 11, 12, 13, 15]);
    let id = random.word().into();
    let fields = Op {
        psel: random.below(4),
        alu: random.below(16),
        asl: random.below(2),
        dpl: random.below(4),
        dphm: random.below(8),
        rpdcr: random.below(2),
        src: 1 + random.below(15),
        dst,
    };
    match random.below(6) {
        0 => (p20::jp(brch, cnd, na), c25::jp(same_code(brch, cnd), na)),
        1 => (p20::ldi(id, dst), c25::ldi(id, dst)),
        2 => (p20::rt(fields), c25::rt(fields)),
        _ => (p20::op(fields), c25::op(fields)),
    }
}

/// BRCH on top as on the smaller chip, then the condition doubled; the one for low DP 15 also.
fn same_code(brch: u32, cnd: u32) -> u32 {
    brch << 6 | cnd << 1
}

/// The cells of the larger chip are eight times those of the smaller, so RO and KLR give the same too. PC doesn't go round, nor RP,
/// and an LDI or a move to a pointer sends what both can hold.
#[test]
fn one_word_or_event() {
    let mut random = Random::new(77);
    let rom_77p20 = [0; 512].map(|_: u16| random.word() % 8192);
    let mut rom_77c25 = [0xffff; 1024];
    for (wide, narrow) in rom_77c25.iter_mut().zip(rom_77p20) {
        *wide = narrow * 8;
    }
    let (mut compared, mut pointers_loaded) = (0, 0);
    for _ in 0..400_000 {
        let mut registers = fitting_registers(&mut random);
        registers.pc %= 511;
        registers.rp = registers.rp.max(1);
        let (mut program_77p20, mut program_77c25) = ([0; 512], [0; 2048]);
        let (narrow, wide) = word(&mut random);
        program_77p20[usize::from(registers.pc)] = narrow;
        program_77c25[usize::from(registers.pc)] = wide;
        let ram: [u16; 128] = std::array::from_fn(|_| random.word());
        let mut ram_77p20 = ram;
        let mut ram_77c25 = [0x5555; 256];
        ram_77c25[..128].copy_from_slice(&ram);
        let (kind, value) = if random.one_in(4) { (random.below(8), 0) } else { (0, 1) };

        let (mut after_77p20, mut after_77c25) = (registers, registers);
        let reply_77p20 = event(&mut after_77p20, &program_77p20, &rom_77p20, &mut ram_77p20, kind, value);
        let reply_77c25 = event_on(C25, &mut after_77c25, &program_77c25, &rom_77c25, &mut ram_77c25, kind, value);

        // A loaded pointer keeps more bits here.
        if after_77c25.dp >= 128 || after_77c25.rp >= 512 {
            pointers_loaded += 1;
            after_77c25.dp %= 128;
            after_77c25.rp %= 512;
            assert!(matches!(narrow % 16, dst::DP | dst::RP));
        }
        assert_eq!(reply_77p20, reply_77c25, "{narrow:06X}H and {wide:06X}H");
        assert_eq!(after_77p20, after_77c25, "{narrow:06X}H and {wide:06X}H");
        assert_eq!(ram_77p20, ram_77c25[..128]);
        assert_eq!(ram_77c25[128..], [0x5555; 128]);
        compared += 1;
    }
    assert!(compared == 400_000 && pointers_loaded > 0);
}

/// The data book's word for the larger chip and the paper's for the smaller, each by hand: load A with 1234H, jump to 100H.
#[test]
fn two_words_of_each_by_hand() {
    assert_eq!((p20::ldi(0x1234, dst::A), c25::ldi(0x1234, dst::A)), (0x624681, 0xc48d01));
    assert_eq!((p20::jp(JUMP, 0, 0x100), c25::jp(c25::JMP, 0x100)), (0x501000, 0xa00400));
    assert_eq!((p20::mov(dst::MEM, src::MEM), c25::mov(dst::MEM, src::MEM)), (0x0000ff, 0x0000ff));
}
