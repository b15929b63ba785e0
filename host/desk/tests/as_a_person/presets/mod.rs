//! Presets as a person has them: given to a machine, written, checked, shown and compared.

mod check;
mod diff;
mod events;
mod files;
mod kept;
mod options;
mod refused;
mod show;
mod statements;
mod story;
mod tracks;
mod twice;
mod words;
mod write;

use crate::folder::Folder;
use crate::images::text;
use std::array;

type Cells = [u16; 128];

const ADDRESS: &str = "refusal 15, address outside, given twice or missing";

/// Cells of which no two are equal and none is 0, with letters and digits in both bytes.
fn cells() -> Cells {
    array::from_fn(|at| (at as u16).wrapping_mul(0x6b7d) ^ 0xa5c3)
}

/// The text of a preset by the rules' own sentence: sixteen records of sixteen bytes, low byte first, and the end record.
fn preset(cells: &Cells) -> String {
    text(&cells.iter().flat_map(|cell| cell.to_le_bytes()).collect::<Vec<u8>>())
}

/// The first eight records of a preset and the end record.
fn half(cells: &Cells) -> String {
    text(&cells[..64].iter().flat_map(|cell| cell.to_le_bytes()).collect::<Vec<u8>>())
}

/// What is wrong with half a preset, behind its name.
fn half_is_refused() -> String {
    format!("9: {ADDRESS}: 0080H is missing, and 127 more: expected 0000H to 00FFH: \":00000001FF\"")
}

/// The statement that gives a machine these cells.
fn ram(cells: &Cells) -> String {
    let values: String = cells.iter().map(|cell| format!(" {cell:04X}H")).collect();
    format!("ram 000H:{values}\n")
}

/// A script that expects every cell.
fn expected(cells: &Cells) -> String {
    cells.iter().enumerate().map(|(at, cell)| format!("expect ram {at} {cell}\n")).collect()
}

/// A folder with a preset, a script that expects its cells, and half of that preset.
fn whole_and_half() -> Folder {
    let folder = Folder::new().with("p.hex", preset(&cells())).with("half.hex", half(&cells()));
    folder.with("expects.desk", expected(&cells()))
}

/// JNSIAK 000H; MOV @A,SIM; MOV @SOM,MEM; JMP 000H: for each sample the first cell of the RAM is sent.
const SENDS_CELL: &str = "program 0: 4B4000H 0000B1H 0000F9H 500000H\n";

/// The same folder with a program that sends the first cell for each sample, and a sound.
fn sends_cell() -> Folder {
    let folder = whole_and_half().with("sends.desk", SENDS_CELL);
    folder.write_sound("a.wav", 8000, &[1, 2, 3]);
    folder
}

/// The sample that the first cell makes.
fn sent() -> i16 {
    cells()[0] as i16
}
