//! `desk preset diff`: a line a cell that differs, and the status.

use super::{cells, half_is_refused, preset, whole_and_half};
use crate::folder::Ran;

const DIFFER: &str = "desk: the presets differ\n";

#[test]
fn presets_with_the_same_cells_do_not_differ() {
    let folder = whole_and_half().with("small.hex", preset(&cells()).to_lowercase().replace('\n', "\r\n"));
    folder.desk("preset diff p.hex p.hex").is_done("no cell differs\n");
    folder.desk("preset diff p.hex small.hex").is_done("no cell differs\n");
}

#[test]
fn a_cell_that_differs_is_told_by_row_and_column() {
    let mut others = cells();
    others[0x25] = 0x2000;
    let mut monday = cells();
    monday[0x25] = 0x4000;
    let folder = whole_and_half().with("monday.hex", preset(&monday)).with("tuesday.hex", preset(&others));
    let line = "25H, row 010 column 5: 4000H in monday.hex, 2000H in tuesday.hex";
    assert_eq!(folder.desk("preset diff monday.hex tuesday.hex"), Ran::new(1, format!("{line}\n1 cell differs\n"), DIFFER));
    let line = "25H, row 010 column 5: 2000H in tuesday.hex, 4000H in monday.hex";
    assert_eq!(folder.desk("preset diff tuesday.hex monday.hex"), Ran::new(1, format!("{line}\n1 cell differs\n"), DIFFER));
}

#[test]
fn cells_are_told_in_their_order() {
    let mut others = cells();
    [0, 0x3c, 0x7f].into_iter().for_each(|at: usize| others[at] ^= 0x8001);
    let line = |place: &str, at: usize| format!("{place}: {:04X}H in p.hex, {:04X}H in standard input\n", cells()[at], others[at]);
    let lines = [line("00H, row 000 column 0", 0), line("3CH, row 011 column C", 0x3c), line("7FH, row 111 column F", 0x7f)];
    let ran = whole_and_half().desk_with_input("preset diff p.hex -", preset(&others).as_bytes());
    assert_eq!(ran, Ran::new(1, format!("{}3 cells differ\n", lines.concat()), DIFFER));
}

#[test]
fn every_cell_may_differ() {
    let folder = whole_and_half().with("other.hex", preset(&cells().map(|cell| !cell)));
    let ran = folder.desk("preset diff p.hex other.hex");
    assert_eq!((ran.status, ran.printed.lines().count(), ran.printed.lines().last()), (1, 129, Some("128 cells differ")));
}

#[test]
fn what_is_no_preset_is_bad_input() {
    let folder = whole_and_half();
    let told = format!("half.hex:{}", half_is_refused());
    folder.desk("preset diff p.hex half.hex").is_refused(2, &told);
    folder.desk("preset diff half.hex half.hex").is_refused(2, &told);
    folder.desk("preset show half.hex").is_refused(2, &told);
}
