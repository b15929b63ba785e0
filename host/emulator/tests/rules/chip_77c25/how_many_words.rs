//! How many of the 2^24 words meet which refusal, from the widths of the fields.

use super::machine::{recognisable, Machine, C25, HERE};
use crate::machine::DONE;
use emulator::{event_on, Reply};

/// How many words met each number, 0 being done.
fn counted(machine: &Machine) -> [u32; 19] {
    let Machine { mut registers, mut program, rom, mut ram, .. } = machine.clone();
    let dp = usize::from(registers.dp);
    let mut counts = [0; 19];
    for word in 0..1 << 24 {
        program[usize::from(HERE)] = word;
        let reply = event_on(C25, &mut registers, &program, &rom, &mut ram, 0, 1);
        counts[usize::from(reply.number)] += 1;
        if reply.number == 0 {
            registers = machine.registers;
            // The only cell that a word can change.
            ram[dp] = machine.ram[dp];
        } else {
            assert_eq!((reply, registers, ram[dp]), (Reply { words: 0, ..reply }, machine.registers, machine.ram[dp]), "{word:06X}H");
        }
    }
    assert_eq!(ram, machine.ram);
    counts
}

/// OP, RT, JP and LDI have 2^22 = 4194304 words each.
///
/// A JP word has code (9 bits), NA (11) and spare (2), so each code has 2^13 = 8192 words. Of the 512 codes 36 are listed:
/// - 476 are not: 476 * 8192 = 3899392 words are refused with 5;
/// - a listed one runs with spare 0 only: 36 * 2048 * 3 = 221184 words are refused with 18, and 36 * 2048 = 73728 are left.
///
/// An LDI word has ID (16), spare (2) and DST (4) and runs with spare 0 only: 65536 * 3 * 16 = 3145728 words are refused with 18,
/// and 65536 * 16 = 1048576 are left.
///
/// OP and RT have no unused bits: with 18 are refused 221184 + 3145728 = 3366912 words.
///
/// The state has no say in these. At depth 0 all 4194304 RT words are refused with 8, at depth 4 the 2048 calls with spare 0 are
/// refused with 9. 6 and 7 are never given, though every cell of data ROM is FFFFH.
///
/// Left to run at depth 0: 4194304 OP + 73728 JP + 1048576 LDI = 5316608. At depths 1 to 3 also RT: 9510912. At depth 4 all of these
/// but the calls: 9508864.
#[test]
fn how_many_words_are_refused() {
    let depths = [(0, 5316608, 4194304, 0), (2, 9510912, 0, 0), (4, 9508864, 0, 2048)];
    let tried = if cfg!(debug_assertions) { 1 } else { 3 };
    for (depth, done, empty, full) in depths.into_iter().take(tried) {
        let mut machine = recognisable();
        machine.registers.depth = depth;
        machine.rom.fill(0xffff);
        let mut expected = [0; 19];
        expected[usize::from(DONE.number)] = done;
        expected[5] = 3899392;
        expected[8] = empty;
        expected[9] = full;
        expected[18] = 3366912;
        assert_eq!(expected.iter().sum::<u32>(), 1 << 24);
        assert_eq!(counted(&machine), expected, "depth {depth}");
    }
}
