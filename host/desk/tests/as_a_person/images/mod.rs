//! Images in Intel HEX as a person gives them: by statements and by options, wherever they are taken.

mod example;
mod files;
mod kept;
mod loaded;
mod options;
mod refused;
mod statements;
mod tracks;
mod twice;

use crate::folder::Folder;

/// LDI @RP,1FFH; MOV @A,RO: the last cell of the data ROM goes to A.
const LAST_CELL: [u32; 2] = [0x603fe5, 0x000061];

/// JNSIAK 000H; MOV @A,SIM; MOV @SOM,RO; JMP 000H: for each sample the first cell of the data ROM is sent.
const SENDS_CELL: [u32; 4] = [0x4b4000, 0x0000b1, 0x000069, 0x500000];

pub const END: &str = ":00000001FF\n";

/// One record of a text.
pub fn record(address: usize, kind: u8, data: &[u8]) -> String {
    let mut bytes = vec![data.len() as u8, (address >> 8) as u8, address as u8, kind];
    bytes.extend(data);
    bytes.push(bytes.iter().fold(0, |check, byte| check.wrapping_sub(*byte)));
    let digits: String = bytes.iter().map(|byte| format!("{byte:02X}")).collect();
    format!(":{digits}\n")
}

/// A text of records with sixteen bytes each, and the end record.
pub fn text(bytes: &[u8]) -> String {
    let records = bytes.chunks(16).enumerate().map(|(at, data)| record(16 * at, 0, data));
    records.collect::<String>() + END
}

/// The image of a program that begins with these words; zeros are behind them.
pub fn program(words: &[u32]) -> String {
    let mut bytes: Vec<u8> = words.iter().flat_map(|word| word.to_le_bytes()).collect();
    bytes.resize(2048, 0);
    text(&bytes)
}

/// The image of a data ROM with this in one cell, and zeros in all others.
pub fn data(cell: usize, value: u16) -> String {
    let mut bytes = [0; 1024];
    bytes[2 * cell..2 * cell + 2].copy_from_slice(&value.to_le_bytes());
    text(&bytes)
}

/// A text whose line, counted from 1, is another.
pub fn with_line(text: &str, line: usize, other: &str) -> String {
    let mut lines: Vec<&str> = text.split_inclusive('\n').collect();
    lines[line - 1] = other;
    lines.concat()
}

/// A folder with a program that puts the last cell of the data ROM into A, that data ROM, and a script that shows it.
fn last_cell() -> Folder {
    let folder = Folder::new().with("program.hex", program(&LAST_CELL)).with("data.hex", data(511, 0x1fff));
    folder.with("runs.desk", "run 2\nexpect A FFF8H\nexpect PC 2\n")
}

/// A folder with a program that sends the first cell of the data ROM for each sample, that data ROM, and a sound.
fn sends_cell() -> Folder {
    let folder = Folder::new().with("program.hex", program(&SENDS_CELL)).with("data.hex", data(0, 0x0123));
    folder.write_sound("a.wav", 8000, &[1, 2, 3]);
    folder
}

/// The sample that 0123H in the data ROM makes: 13 bits at the left of 16.
const SENT: i16 = 0x0123 << 3;
