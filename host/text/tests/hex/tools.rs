//! Texts that other programs wrote of the bytes n*n/7 + 5n: GNU objcopy 2.40 (CR LF) and srec_cat 1.64 (LF).

use crate::lent;

fn byte(address: usize) -> u8 {
    (address * address / 7 + address * 5) as u8
}

#[test]
fn a_program_of_objcopy_is_read() {
    let words: Vec<u32> = (0..512).map(|n| u32::from_le_bytes([0, 1, 2, 3].map(|offset| byte(4 * n + offset)))).collect();
    let text = include_bytes!("objcopy.hex");
    assert_eq!(lent::program(text), words);
    assert_eq!(lent::program_outcome(text), (0, 129));
    assert!(text.ends_with(b":00000001FF\r\n"));
}

#[test]
fn a_data_rom_of_srec_cat_is_read() {
    let cells: Vec<u16> = (0..512).map(|n| u16::from_le_bytes([0, 1].map(|offset| byte(2 * n + offset)))).collect();
    let text = include_bytes!("srec_cat.hex");
    assert_eq!(lent::data(text), cells);
    assert_eq!(lent::data_outcome(text), (0, 33));
    assert!(text.ends_with(b":00000001FF\n"));
}
