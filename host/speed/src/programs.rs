//! Three endless programs for either chip: the mixing loop, the manual's biquad called without end, and one that jumps more than it computes.

use crate::assembly::{alu, call, jump, mov, when, Line, NOTHING};
use crate::assembly::{ADC, ADD, BUS, INC, JDPL0, JNCA, JNCB, JNOVA1, JNZA, JNZB, JSA0, JSB0, M, N, SHR1, XOR};
use emulator::bus as src;
use emulator::destination as dst;
use emulator::{Chip, OpFields};

/// What a run is lent, and its name.
#[derive(Clone)]
pub struct Program {
    pub name: &'static str,
    pub words: Vec<u32>,
    pub rom: Vec<u16>,
    pub ram: Vec<u16>,
}

/// Adds M to A.
const ADD_M: OpFields = OpFields { psel: M, alu: ADD, ..NOTHING };
/// Loads K from RAM and L from data ROM.
const KLR: OpFields = OpFields { rpdcr: 1, src: src::MEM, dst: dst::KLR, ..NOTHING };
/// Both at once.
const ADD_M_KLR: OpFields = OpFields { psel: M, alu: ADD, ..KLR };

/// Adds products of RAM and data ROM and sends the sum. After 20 million words from fresh registers its state is known from
/// other emulators of the 77P20, with data ROM and RAM from a linear congruence.
const MIXING_LOOP: [Line; 15] = [
    Line::Ldi(0, dst::DP),
    Line::Ldi(255, dst::RP),
    Line::Op(OpFields { psel: BUS, alu: XOR, asl: 0, src: src::A, ..NOTHING }),
    Line::Op(OpFields { psel: BUS, alu: XOR, asl: 1, src: src::B, ..NOTHING }),
    Line::Op(OpFields { dpl: 1, ..KLR }), // 4
    Line::Op(OpFields { psel: N, alu: ADD, asl: 1, src: src::TR, ..NOTHING }),
    Line::Op(OpFields { psel: M, alu: ADC, asl: 0, src: src::TR, ..NOTHING }),
    when(JDPL0, 9),
    jump(4),
    when(JNOVA1, 0xb), // 9
    mov(dst::A, src::SGN),
    Line::Op(OpFields { dphm: 1, src: src::A, dst: dst::SOM, ..NOTHING }), // 0BH
    Line::Op(OpFields { dpl: 1, src: src::A, dst: dst::MEM, ..NOTHING }),
    mov(dst::MEM, src::B),
    jump(0),
];

/// PC, A, B, K, L, DP, RP and SO of the mixing loop on the 77P20 after 20 million words.
pub const MIXED_20_MILLION: [u16; 8] = [0x004, 0x04fb, 0xe250, 0x31df, 0xd078, 0x0c, 0x0f3, 0x7d51];

/// The manual's BIQFIL (Example A) at 008H, and a loop at 0 that hands it its own output at half level with RP at its coefficients.
const BIQUAD: [Line; 19] = [
    Line::Ldi(511, dst::RP),
    Line::Ldi(0, dst::DP),
    alu(SHR1, 0),
    call(8),
    alu(INC, 0),
    jump(0),
    Line::Op(NOTHING),
    Line::Op(NOTHING),
    Line::Op(OpFields { psel: BUS, alu: XOR, src: src::A, ..KLR }), // 8
    Line::Op(ADD_M_KLR),
    Line::Op(OpFields { dphm: 1, src: src::K, dst: dst::B, ..ADD_M }),
    Line::Op(ADD_M_KLR),
    Line::Op(OpFields { rpdcr: 1, src: src::RO, dst: dst::L, ..ADD_M }),
    when(JNOVA1, 0xf),
    mov(dst::A, src::SGN),
    Line::Op(OpFields { dphm: 1, src: src::A, dst: dst::TR, ..ADD_M }), // 0FH
    Line::Op(KLR),
    Line::Op(OpFields { dphm: 1, src: src::TR, dst: dst::MEM, ..ADD_M }),
    Line::Rt(OpFields { dphm: 1, src: src::B, dst: dst::MEM, ..ADD_M }),
];

/// Conditional jumps taken and not taken, a call, a return, and two words that count.
const JUMPS: [Line; 17] = [
    alu(INC, 0),
    when(JNZA, 3),
    jump(0),
    when(JSA0, 5), // 3
    jump(6),
    call(0x10), // 5
    alu(INC, 1),
    when(JNZB, 9),
    jump(0),
    when(JNCA, 0xb), // 9
    jump(0xb),
    when(JNCB, 0xd), // 0BH
    jump(0xd),
    when(JDPL0, 0), // 0DH
    jump(0),
    Line::Op(NOTHING),
    Line::Rt(NOTHING), // 10H: back at once
];

fn lent(chip: Chip, name: &'static str, lines: &[Line]) -> Program {
    let sizes = chip.sizes();
    let mut x: u32 = 1;
    let mut next = |bits: u32| {
        x = x.wrapping_mul(1_103_515_245).wrapping_add(12345);
        ((x >> 16) % (1 << bits)) as u16
    };
    let ram = (0..sizes.ram).map(|_| next(16)).collect();
    let rom = (0..sizes.cells).map(|_| next(sizes.cell_bits)).collect();
    let mut words = vec![0; sizes.words];
    words.iter_mut().zip(lines).for_each(|(word, line)| *word = line.word(chip));
    Program { name, words, rom, ram }
}

pub fn mixing_loop(chip: Chip) -> Program {
    lent(chip, "mixing loop", &MIXING_LOOP)
}

pub fn biquad(chip: Chip) -> Program {
    lent(chip, "biquad", &BIQUAD)
}

pub fn jumps(chip: Chip) -> Program {
    lent(chip, "jumps", &JUMPS)
}

pub fn loops(chip: Chip) -> Vec<Program> {
    vec![mixing_loop(chip), biquad(chip), jumps(chip)]
}

/// Words alone: as many times the same as a program has words.
pub fn alone(chip: Chip) -> Vec<Program> {
    let same = |name: &'static str, line: Line| lent(chip, name, &vec![line; chip.sizes().words]);
    vec![
        same("LDI", Line::Ldi(0, dst::DP)),
        same("move", mov(dst::TR, src::K)),
        same("jump untaken", when(JSB0, 0)),
        same("word 0", Line::Op(NOTHING)),
        same("SHR1", alu(SHR1, 0)),
        same("ADD M", Line::Op(ADD_M)),
        same("ADD M, move", Line::Op(ADD_M_KLR)),
    ]
}
