//! "Hex digits may be capitals or small letters when read."

use text::read_record;

use crate::{lent, zeros};

#[test]
fn capitals_small_letters_and_both_together_are_read() {
    let lines: [&[u8]; 4] = [b":04000000ABCDEFFA9B\n", b":04000000abcdeffa9b\n", b":04000000aBCdEfFa9b\n", b":04000000ABCDEFFA9b\n"];
    assert_eq!(lines.map(|line| (read_record(line).number, read_record(line).bytes)), [(0, 4); 4]);
}

#[test]
fn small_letters_in_the_head_are_read() {
    let line = format!(":ff0abc00{}3b\n", "00".repeat(255));
    let read = read_record(line.as_bytes());
    assert_eq!((read.number, read.address, read.bytes), (0, 0x0ABC, 255));
}

#[test]
fn both_spell_the_same_image() {
    let capitals = zeros::data_with(1, &format!(":80000000ABCDEF{}19", "00".repeat(125)));
    let small = capitals.to_ascii_lowercase();
    assert_ne!(capitals, small);
    assert_eq!(lent::data(&capitals)[..3], [0xCDAB, 0x00EF, 0x0000]);
    assert_eq!(lent::data(&capitals), lent::data(&small));
}
