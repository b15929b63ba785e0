//! `desk preset show`: the cells of a preset in the rows and columns of DP.

use super::file;
use crate::chip::ram;
use crate::commands::arguments::Arguments;
use crate::commands::image_files::files;
use crate::fault::Fault;
use crate::output::print_lines;

const USE: &str = "expected `desk preset show FILE`, where - is standard input";

pub fn command(arguments: &[String]) -> Result<(), Fault> {
    let mut arguments = Arguments::new(USE, arguments);
    let [preset] = files(&mut arguments)?[..] else { return Err(arguments.bad("one preset")) };
    print_lines(&table(&file::read(preset)?))
}

/// The bits of DP over the rows and columns that they choose, the columns over the cells, and before each row its bits.
fn table(cells: &[u16]) -> Vec<String> {
    let rows = ram::rows(cells).map(|from| format!("{}    {}", ram::row_bits(from), ram::row(from, cells, cells, None)));
    let head = ["DP6-4       DP3-0".to_string(), format!("row    {}", ram::header())];
    head.into_iter().chain(rows).map(|line| line.trim_end().to_string()).collect()
}
