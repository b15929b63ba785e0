//! `desk preset diff`: the cells in which two presets differ.

use super::file;
use crate::chip::ram;
use crate::commands::arguments::Arguments;
use crate::commands::image_files::{called, files};
use crate::fault::Fault;
use crate::numbers;
use crate::output::print_lines;
use std::path::Path;

const USE: &str = "expected `desk preset diff A B`, where one of them may be - for standard input";

pub fn command(arguments: &[String]) -> Result<(), Fault> {
    let mut arguments = Arguments::new(USE, arguments);
    let [one, other] = files(&mut arguments)?[..] else { return Err(arguments.bad("two presets")) };
    let mut lines = differences((one, &file::read(one)?), (other, &file::read(other)?));
    let differ = lines.len();
    lines.push(counted(differ));
    print_lines(&lines)?;
    match differ {
        0 => Ok(()),
        _ => Err(Fault::failed("the presets differ")),
    }
}

/// A line a cell.
fn differences((one, cells): (&Path, &[u16]), (other, others): (&Path, &[u16])) -> Vec<String> {
    let differ = cells.iter().zip(others).enumerate().filter(|(_, (cell, other))| cell != other);
    let line = |(at, (cell, its_other)): (usize, (&u16, &u16))| {
        format!(
            "{at:02X}H, row {} column {:X}: {} in {}, {} in {}",
            ram::row_bits(at),
            at % ram::COLUMNS,
            numbers::register(*cell),
            called(one).display(),
            numbers::register(*its_other),
            called(other).display()
        )
    };
    differ.map(line).collect()
}

fn counted(differences: usize) -> String {
    match differences {
        0 => "no cell differs".to_string(),
        1 => "1 cell differs".to_string(),
        more => format!("{more} cells differ"),
    }
}
