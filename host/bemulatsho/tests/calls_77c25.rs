//! Each call of the wrapper on the 77C25, with answers from the rules.

use bemulatsho::upd77c25::{build, event, fresh_registers, take_apart, CELLS, RAM, WORDS};
use bemulatsho::upd77c25::{CodeFields, LdiFields, OpFields, Registers, Word};
use bemulatsho::{kind, Reply};

type SmallRegisters = bemulatsho::Registers;

fn refused(number: u8) -> Reply {
    Reply { number, words: 0, value: 0 }
}

/// One word at PC, with a data ROM and a RAM whose cells hold their own numbers and 8000H more.
fn run(word: u32, registers: &mut Registers) -> Reply {
    let mut program = [0; WORDS];
    program[usize::from(registers.registers.pc)] = word;
    let rom: [u16; CELLS] = std::array::from_fn(|cell| 0x8000 + cell as u16);
    let mut ram: [u16; RAM] = std::array::from_fn(|cell| 0x8000 + cell as u16);
    event(registers, &program, &rom, &mut ram, kind::RUN, 1)
}

/// What a word that is done makes of these registers.
fn after(word: u32, mut registers: Registers) -> Registers {
    assert_eq!(run(word, &mut registers), Reply { number: 0, words: 1, value: 0 }, "{word:06X}H");
    registers
}

fn small(registers: SmallRegisters) -> Registers {
    Registers { registers, ..fresh_registers() }
}

#[test]
fn a_fresh_machine_is_all_0() {
    assert_eq!(fresh_registers(), Registers::default());
}

#[test]
fn a_word_of_each_row_is_taken_apart_built_and_run() {
    let up_to_row_8 = OpFields { dpl: 1, dphm: 8, ..OpFields::default() };
    let words = [
        (0x003000, Word::Op(up_to_row_8)),
        (0x403000, Word::Rt(up_to_row_8)),
        (0xa00400, Word::Jp(CodeFields { code: 0x100, na: 0x100, spare: 0 })),
        (0xc48d01, Word::Ldi(LdiFields { id: 0x1234, spare: 0, dst: 1 })),
    ];
    let stack = [0x7ff, 0, 0, 0];
    let before = SmallRegisters { depth: 1, stack, dp: 0x0f, ..SmallRegisters::default() };
    let states = [
        SmallRegisters { pc: 1, dp: 0x80, ..before },
        SmallRegisters { pc: 0x7ff, depth: 0, dp: 0x80, ..before },
        SmallRegisters { pc: 0x100, ..before },
        SmallRegisters { pc: 1, a: 0x1234, ..before },
    ];
    for ((word, fields), state) in words.into_iter().zip(states) {
        assert_eq!(take_apart(word), Ok(fields));
        assert_eq!(build(&fields), Ok(word));
        assert_eq!(after(word, small(before)), small(state), "{word:06X}H");
    }
}

#[test]
fn words_and_fields_that_are_too_wide_are_refused() {
    assert!(take_apart((1 << 24) - 1).is_ok());
    assert_eq!(take_apart(1 << 24), Err(4));
    assert_eq!(run(1 << 24, &mut fresh_registers()), refused(4));
    let code = CodeFields { code: 511, na: 2047, spare: 3 };
    assert_eq!(build(&Word::Jp(code)), Ok(0xbfffff));
    for wide in [CodeFields { code: 512, ..code }, CodeFields { na: 2048, ..code }, CodeFields { spare: 4, ..code }] {
        assert_eq!(build(&Word::Jp(wide)), Err(11));
    }
    assert_eq!(build(&Word::Op(OpFields { dphm: 15, ..OpFields::default() })), Ok(0x1e00));
    assert_eq!(build(&Word::Op(OpFields { dphm: 16, ..OpFields::default() })), Err(11));
    assert_eq!(build(&Word::Ldi(LdiFields { id: 0, spare: 4, dst: 0 })), Err(11));
}

#[test]
fn trb_is_source_0_and_destination_14_and_reset_leaves_it() {
    let loaded = after(0xc48d0e, fresh_registers());
    assert_eq!(loaded, Registers { trb: 0x1234, registers: SmallRegisters { pc: 1, ..SmallRegisters::default() } });
    assert_eq!(after(0x000001, loaded).registers.a, 0x1234);
    assert_eq!(after(0x00001e, Registers { registers: SmallRegisters { a: 7, ..loaded.registers }, ..loaded }).trb, 7);
    let mut registers = loaded;
    assert_eq!(event(&mut registers, &[0; WORDS], &[0; CELLS], &mut [0; RAM], kind::RESET, 0), refused(0));
    assert_eq!(registers, Registers { trb: 0x1234, ..fresh_registers() });
}

/// RO and KLR hand the cell as it is; KLM reads the cell whose address is DP with bit 6 set and bit 7 kept.
#[test]
fn cells_are_of_16_bits_and_klm_keeps_bit_7_of_dp() {
    let at = small(SmallRegisters { dp: 0x85, rp: 0x3ff, ..SmallRegisters::default() });
    assert_eq!(after(0x000061, at).registers.a, 0x83ff);
    assert_eq!(after(0x0000fb, at).registers, SmallRegisters { pc: 1, k: 0x8085, l: 0x83ff, ..at.registers });
    assert_eq!(after(0x0000fc, at).registers, SmallRegisters { pc: 1, k: 0x80c5, l: 0x8085, ..at.registers });
}

#[test]
fn pointers_go_round_at_their_own_ends() {
    let last = small(SmallRegisters { pc: 2047, ..SmallRegisters::default() });
    assert_eq!(after(0x000100, last).registers, SmallRegisters { rp: 1023, ..SmallRegisters::default() });
    assert_eq!(after(0xa81ffc, last).registers, SmallRegisters { pc: 2047, depth: 1, ..SmallRegisters::default() });
}

/// JDPL0 and JDPLF to 100H, and behind each the code that asks for the opposite, at a low DP of 0, 1 and 15.
#[test]
fn jumps_ask_whether_low_dp_is_0_or_15_and_whether_it_is_not() {
    for (is, low) in [(0x960400, 0x0), (0x964400, 0xf)] {
        let is_not = is + 0x2000;
        for dp in [0x30, 0x31, 0x3f] {
            let at = small(SmallRegisters { dp, ..SmallRegisters::default() });
            let (taken, untaken) = if dp % 16 == low { (is, is_not) } else { (is_not, is) };
            assert_eq!(after(taken, at).registers.pc, 0x100, "{taken:06X}H at {dp:X}H");
            assert_eq!(after(untaken, at).registers.pc, 1, "{untaken:06X}H at {dp:X}H");
        }
    }
}

/// A jump and a call with a bit of a condition set, and a condition turned round that is none of low DP's.
#[test]
fn codes_that_the_data_book_does_not_list_are_refused() {
    for word in [0xa02000, 0xa04400, 0xa82000, 0x902000, 0x800000, 0xbfe000, 0xa02003] {
        let mut registers = fresh_registers();
        assert_eq!(run(word, &mut registers), refused(5), "{word:06X}H");
        assert_eq!(registers, fresh_registers());
    }
}

#[test]
fn words_with_spare_bits_are_taken_apart_and_built_but_not_run() {
    for word in [0xa00401, 0xa80402, 0x900003, 0xc48d11, 0xc48d21] {
        assert_eq!(take_apart(word).and_then(|fields| build(&fields)), Ok(word));
        let mut registers = fresh_registers();
        assert_eq!(run(word, &mut registers), refused(18), "{word:06X}H");
        assert_eq!(registers, fresh_registers());
    }
}

#[test]
fn a_refused_call_changes_nothing() {
    let none = SmallRegisters::default();
    let unfit = [
        SmallRegisters { pc: 2048, ..none },
        SmallRegisters { stack: [0, 0, 0, 2048], ..none },
        SmallRegisters { dp: 256, ..none },
        SmallRegisters { rp: 1024, ..none },
    ];
    for unfit in unfit.map(|registers| Registers { registers, trb: 7 }) {
        let mut registers = unfit;
        assert_eq!(event(&mut registers, &[0; WORDS], &[0; CELLS], &mut [0; RAM], kind::RESET, 0), refused(2));
        assert_eq!(registers, unfit);
    }
    for (words, cells, ram) in [(WORDS - 1, CELLS, RAM), (WORDS, CELLS + 1, RAM), (WORDS, CELLS, 128), (512, 512, 128), (0, 0, 0)] {
        let (program, rom, mut ram) = (vec![0; words], vec![0; cells], vec![0; ram]);
        assert_eq!(event(&mut fresh_registers(), &program, &rom, &mut ram, kind::RUN, 0), refused(1));
    }
}
