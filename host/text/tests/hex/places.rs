//! "instruction word n at addresses 4n to 4n+3 and data cell n at 2n and 2n+1, low byte first"

use crate::{lent, writer, zeros};

#[test]
fn a_cell_has_its_low_byte_first() {
    let cells = lent::data(&zeros::data_with(1, &format!(":80000000341278{}C2", "00".repeat(125))));
    assert_eq!(cells[..3], [0x1234, 0x0078, 0x0000]);
    let cells = lent::data(&zeros::data_with(8, &format!(":80038000{}EF010D", "00".repeat(126))));
    assert_eq!(cells[510..], [0x0000, 0x01EF]);
}

#[test]
fn a_word_has_its_low_byte_first() {
    let mut lines = zeros::program();
    lines[0] = format!(":8000000078563412AB{}C1", "00".repeat(123));
    lines[15] = format!(":80078000{}2143650030", "00".repeat(124));
    let words = lent::program(&zeros::text(&lines));
    assert_eq!(words[..3], [0x1234_5678, 0x0000_00AB, 0]);
    assert_eq!(words[510..], [0, 0x0065_4321]);
}

/// "A value too wide for its cell is loaded": a word has 23 bits and a data cell 13, and every bit of the memory is filled.
#[test]
fn values_too_wide_are_loaded() {
    let ones = vec![0xFF; 2048];
    assert_eq!(lent::program(&zeros::text(&writer::lines(&ones, 255))), [0xFFFF_FFFF; 512]);
    assert_eq!(lent::data(&zeros::text(&writer::lines(&ones[..1024], 255))), [0xFFFF; 512]);
}

#[test]
fn every_byte_comes_to_its_place() {
    let bytes: Vec<u8> = (0..2048u32).map(|n| (n * 37 + n / 256) as u8).collect();
    let byte = |address: usize| u32::from(bytes[address]);
    for bytes_per_record in [1, 2, 3, 4, 7, 16, 32, 100, 255] {
        let words = lent::program(&zeros::text(&writer::lines(&bytes, bytes_per_record)));
        let cells = lent::data(&zeros::text(&writer::lines(&bytes[..1024], bytes_per_record)));
        for n in 0..512 {
            assert_eq!(words[n], byte(4 * n) | byte(4 * n + 1) << 8 | byte(4 * n + 2) << 16 | byte(4 * n + 3) << 24);
            assert_eq!(u32::from(cells[n]), byte(2 * n) | byte(2 * n + 1) << 8);
        }
    }
}
