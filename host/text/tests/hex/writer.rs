//! Records written from bytes.

/// A record of any type, without an ending.
pub fn record(kind: u8, address: u16, data: &[u8]) -> String {
    let mut bytes = vec![data.len() as u8, (address >> 8) as u8, address as u8, kind];
    bytes.extend_from_slice(data);
    let sum = bytes.iter().fold(0u8, |sum, byte| sum.wrapping_add(*byte));
    bytes.push(sum.wrapping_neg());
    let digits: String = bytes.iter().map(|byte| format!("{byte:02X}")).collect();
    format!(":{digits}")
}

/// The records of an image that starts at address 0, so many bytes in each, and the end record.
pub fn lines(image: &[u8], bytes_per_record: usize) -> Vec<String> {
    let records = image.chunks(bytes_per_record).enumerate().map(|(n, data)| record(0, (n * bytes_per_record) as u16, data));
    records.chain([record(1, 0, &[])]).collect()
}

#[test]
fn the_writer_writes_what_is_published() {
    assert_eq!(record(1, 0, &[]), ":00000001FF");
    assert_eq!(record(0, 0x0010, b"address gap"), ":0B0010006164647265737320676170A7");
    assert_eq!(record(4, 0, &[0xFF, 0xFF]), ":02000004FFFFFC");
}
