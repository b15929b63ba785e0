//! Each call of the wrapper, with answers from the rules.

use bemulatsho::{
    build, event, fresh_registers, kind, load_data, load_preset, load_program, read_record, take_apart, version, write_preset,
};
use bemulatsho::{JpFields, LdiFields, Loading, OpFields, Record, Registers, Reply, Word, Writing, PRESET_TEXT, RAM};

fn run(word: u32, registers: &mut Registers) -> Reply {
    let mut program = [0; bemulatsho::WORDS];
    program[usize::from(registers.pc)] = word;
    event(registers, &program, &[0; bemulatsho::CELLS], &mut [0; bemulatsho::RAM], kind::RUN, 1)
}

#[test]
fn a_fresh_machine_is_all_0() {
    assert_eq!(version(), 3);
    assert_eq!(fresh_registers(), Registers::default());
}

#[test]
fn a_word_is_run_in_the_record_that_was_lent() {
    let mut registers = fresh_registers();
    assert_eq!(run(0x624681, &mut registers), Reply { number: 0, words: 1, value: 0 });
    assert_eq!(registers, Registers { pc: 1, a: 0x1234, ..Registers::default() });
}

#[test]
fn a_refused_call_changes_nothing() {
    let mut registers = Registers { dp: 128, a: 7, ..fresh_registers() };
    assert_eq!(run(0, &mut registers), Reply { number: 2, words: 0, value: 0 });
    assert_eq!(registers, Registers { dp: 128, a: 7, ..fresh_registers() });
    let mut short = [0; bemulatsho::RAM - 1];
    let mut registers = fresh_registers();
    let reply = event(&mut registers, &[0; bemulatsho::WORDS], &[0; bemulatsho::CELLS], &mut short, kind::RESET, 0);
    assert_eq!(reply.number, 1);
}

#[test]
fn an_interrupt_takes_two_words_where_it_is_accepted() {
    let edge = |registers: &mut Registers| {
        event(registers, &[0; bemulatsho::WORDS], &[0; bemulatsho::CELLS], &mut [0; bemulatsho::RAM], kind::INTERRUPT, 0)
    };
    let mut registers = Registers { pc: 5, sr: 0x80, ..fresh_registers() };
    assert_eq!(edge(&mut registers), Reply { number: 0, words: 2, value: 0 });
    assert_eq!(registers, Registers { pc: 0x100, stack: [5, 0, 0, 0], depth: 1, ..fresh_registers() });
    assert_eq!(edge(&mut registers), Reply { number: 0, words: 0, value: 0 });
    assert_eq!(run(0, &mut registers), Reply { number: 0, words: 1, value: 0 });
    let mut full = Registers { sr: 0x80, depth: 4, ..fresh_registers() };
    assert_eq!(edge(&mut full), Reply { number: 9, words: 0, value: 0 });
}

#[test]
fn words_are_taken_apart_and_built() {
    let jump = Word::Jp(JpFields { brch: 4, cnd: 0, na: 0x100, spare: 0 });
    let load = Word::Ldi(LdiFields { id: 0x1234, spare: 0, dst: 1 });
    assert_eq!(take_apart(0x501000), Ok(jump));
    assert_eq!(take_apart(0x624681), Ok(load));
    assert_eq!(take_apart(1 << 23), Err(4));
    assert_eq!(build(&jump), Ok(0x501000));
    assert_eq!(build(&load), Ok(0x624681));
    assert_eq!(build(&Word::Op(OpFields { psel: 4, ..OpFields::default() })), Err(11));
    assert_eq!(build(&Word::Rt(OpFields { alu: 5, psel: 2, ..OpFields::default() })), Ok(0x328000));
}

/// A jump with a spare bit and with CND, a jump on CND with a spare bit, LDI with its spare bit.
#[test]
fn words_with_unused_bits_are_taken_apart_and_built_but_not_run() {
    for word in [0x501001, 0x502000, 0x482008, 0x624691] {
        assert_eq!(take_apart(word).and_then(|fields| build(&fields)), Ok(word));
        let mut registers = fresh_registers();
        assert_eq!(run(word, &mut registers), Reply { number: 18, words: 0, value: 0 });
        assert_eq!(registers, fresh_registers());
    }
}

#[test]
fn an_image_is_filled_whole_or_not_touched() {
    let mut text = String::new();
    for cell in 0..512usize {
        let check = (2 + 2 * cell / 256 + 2 * cell % 256 + cell / 256 + cell % 256).wrapping_neg() & 255;
        text.push_str(&format!(":02{:04X}00{:02X}{:02X}{check:02X}\n", 2 * cell, cell % 256, cell / 256));
    }
    let mut image = [7; bemulatsho::CELLS];
    assert_eq!(load_data(text.as_bytes(), &mut image), Loading { number: 16, line: 512 });
    assert_eq!(image, [7; bemulatsho::CELLS]);
    text.push_str(":00000001FF\n");
    assert_eq!(load_data(text.as_bytes(), &mut image), Loading { number: 0, line: 513 });
    assert!(image.iter().zip(0..).all(|(cell, number)| *cell == number));
    assert_eq!(load_data(text.as_bytes(), &mut image[1..]), Loading { number: 1, line: 0 });
    let mut program = [7; bemulatsho::WORDS];
    assert_eq!(load_program(text.as_bytes(), &mut program), Loading { number: 15, line: 513 });
    assert_eq!(program, [7; bemulatsho::WORDS]);
}

#[test]
fn the_data_characters_are_the_very_part_of_the_line() {
    let line = b":0300300002337A1E\r\n";
    let record = read_record(line);
    assert_eq!(record, Record { number: 0, kind: 0, address: 0x30, bytes: 3, data: b"02337A" });
    assert_eq!(record.data.as_ptr(), line[9..].as_ptr());
    assert_eq!(read_record(b":0300300002337A1F\n"), Record { number: 13, ..Record::default() });
}

/// A RAM of which each cell holds its own number, and its text; the bytes of the first record are 0, 0, 1, 0, .. 7, 0 and with its length, 16,
/// they add up to 2CH, so that its check byte is D4; of the last they are 120 to 127 and 0s, and with 16 and the address F0H 4DCH.
fn own_numbers() -> ([u16; RAM], [u8; PRESET_TEXT]) {
    let ram = std::array::from_fn(|place| place as u16);
    let mut text = [0; PRESET_TEXT];
    assert_eq!(write_preset(&ram, &mut text), Writing { number: 0, length: 716 });
    (ram, text)
}

#[test]
fn a_preset_is_written_and_read_back() {
    let (ram, text) = own_numbers();
    assert!(text.starts_with(b":1000000000000100020003000400050006000700D4\n"));
    assert!(text.ends_with(b":1000F000780079007A007B007C007D007E007F0024\n:00000001FF\n"));
    for before in [0, 7, 0xffff] {
        let mut back = [before; RAM];
        assert_eq!(load_preset(&text, &mut back), Loading { number: 0, line: 17 });
        assert_eq!(back, ram);
    }
}

#[test]
fn half_a_preset_leaves_every_cell() {
    let (_, text) = own_numbers();
    let half = [&text[..8 * 44], b":00000001FF\n"].concat();
    let before: [u16; RAM] = std::array::from_fn(|place| 1000 + place as u16);
    let mut ram = before;
    assert_eq!(load_preset(&half, &mut ram), Loading { number: 15, line: 9 });
    assert_eq!(ram, before);
}

#[test]
fn a_preset_is_written_whole_or_not_at_all() {
    let (ram, text) = own_numbers();
    let mut buffer = [b'~'; 1000];
    for length in [0, 1, 715] {
        assert_eq!(write_preset(&ram, &mut buffer[..length]), Writing { number: 1, length: 0 });
    }
    assert_eq!(write_preset(&ram[1..], &mut buffer), Writing { number: 1, length: 0 });
    assert_eq!(write_preset(&[0; RAM + 1], &mut buffer), Writing { number: 1, length: 0 });
    assert_eq!(buffer, [b'~'; 1000]);
    for length in [716, 717, 1000] {
        assert_eq!(write_preset(&ram, &mut buffer[..length]), Writing { number: 0, length: 716 });
        assert!(buffer[..716] == text && buffer[716..] == [b'~'; 284]);
    }
    let (mut short, mut long) = ([7; RAM - 1], [7; RAM + 1]);
    assert_eq!(load_preset(&text, &mut short), Loading { number: 1, line: 0 });
    assert_eq!(load_preset(&text, &mut long), Loading { number: 1, line: 0 });
    assert!(short == [7; RAM - 1] && long == [7; RAM + 1]);
}
