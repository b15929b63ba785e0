//! "half a preset is 15 and the RAM keeps every cell"

use super::ram::outcome;
use super::zeros;

#[test]
fn either_half_is_refused_at_its_end_record() {
    let lines = zeros::lines();
    let (first, second, end) = (&lines[..8], &lines[8..16], &lines[16..]);
    assert_eq!(outcome(&crate::zeros::text(&[first, end].concat())), (15, 9));
    assert_eq!(outcome(&crate::zeros::text(&[second, end].concat())), (15, 9));
    assert_eq!(outcome(&crate::zeros::text(&[second, first, end].concat())), (0, 17), "the two halves are a whole");
}

/// "15 for "missing" and then 16 come after the last record."
#[test]
fn half_a_text_is_15_and_not_16() {
    assert_eq!(outcome(&crate::zeros::text(&zeros::lines()[..8])), (15, 8));
}

#[test]
fn half_of_every_cell_is_refused() {
    let low_bytes: String = (0..128).map(|cell| crate::writer::record(0, 2 * cell, &[7]) + "\n").collect();
    assert_eq!(outcome(format!("{low_bytes}:00000001FF\n").as_bytes()), (15, 129));
}

#[test]
fn a_missing_record_is_refused() {
    for number in 1..=16 {
        assert_eq!(outcome(&zeros::without(number)), (15, 16));
    }
}

#[test]
fn one_missing_byte_is_enough() {
    let first = format!(":0F000100{}F0", "00".repeat(15));
    assert_eq!(outcome(&zeros::with(1, &first)), (15, 17), "0000 is missing");
    let last = format!(":0F00F000{}01", "00".repeat(15));
    assert_eq!(outcome(&zeros::with(16, &last)), (15, 17), "00FF is missing");
}
