//! Good records read alone, and the part of the line that is handed back.

use text::{read_record, ReadRecord};

/// Lines that are printed in many accounts of the format.
#[test]
fn published_records_are_read() {
    let published: [(&[u8], u16); 4] = [
        (b":10010000214601360121470136007EFE09D2190140\n", 0x0100),
        (b":100110002146017E17C20001FF5F16002148011928\n", 0x0110),
        (b":10012000194E79234623965778239EDA3F01B2CAA7\n", 0x0120),
        (b":100130003F0156702B5E712B722B732146013421C7\n", 0x0130),
    ];
    for (line, address) in published {
        assert_eq!(read_record(line), ReadRecord { number: 0, kind: 0, address, bytes: 16, data: 9..41 });
    }
}

/// "E1's record reader returns a part of the lent line, from its ninth character after the colon".
#[test]
fn the_part_is_the_lines_own_characters() {
    let line = b":0B0010006164647265737320676170A7\r\n";
    let read = read_record(line);
    assert_eq!(read, ReadRecord { number: 0, kind: 0, address: 0x0010, bytes: 11, data: 9..31 });
    assert_eq!(&line[read.data], b"6164647265737320676170");
}

#[test]
fn the_part_keeps_small_letters_as_they_are() {
    let line = b":02001000AbcD76\n";
    assert_eq!(&line[read_record(line).data], b"AbcD");
}

#[test]
fn a_data_record_without_data_has_an_empty_part_at_its_place() {
    assert_eq!(read_record(b":0000000000\n"), ReadRecord { number: 0, kind: 0, address: 0, bytes: 0, data: 9..9 });
    assert_eq!(read_record(b":00123400BA\n"), ReadRecord { number: 0, kind: 0, address: 0x1234, bytes: 0, data: 9..9 });
}

#[test]
fn an_end_record_has_an_empty_part_at_its_place() {
    assert_eq!(read_record(b":00000001FF\n"), ReadRecord { number: 0, kind: 1, address: 0, bytes: 0, data: 9..9 });
}

/// "the end record's address is not looked at": any is good, and handed back as written.
#[test]
fn an_end_record_may_have_any_address() {
    assert_eq!(read_record(b":00123401B9\n"), ReadRecord { number: 0, kind: 1, address: 0x1234, bytes: 0, data: 9..9 });
    assert_eq!(read_record(b":00FFFF0101\n"), ReadRecord { number: 0, kind: 1, address: 0xFFFF, bytes: 0, data: 9..9 });
}

/// 15 belongs to a whole text, so a record alone may stand anywhere.
#[test]
fn a_record_alone_may_be_outside_of_every_image() {
    assert_eq!(read_record(b":02FFFF00000000\n"), ReadRecord { number: 0, kind: 0, address: 0xFFFF, bytes: 2, data: 9..13 });
}

#[test]
fn the_longest_record_has_255_bytes() {
    let line = format!(":FF000000{}01\n", "00".repeat(255));
    assert_eq!(read_record(line.as_bytes()), ReadRecord { number: 0, kind: 0, address: 0, bytes: 255, data: 9..519 });
}
