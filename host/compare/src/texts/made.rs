//! A text of a random image, as one tool or another might have written it: records of any lengths, in any order.

use super::record::{Record, Style};
use random::Random;

pub struct Made {
    /// The image, byte by byte.
    pub bytes: Vec<u8>,
    pub style: Style,
    /// The data records, and the end record last.
    pub records: Vec<Record>,
    pub lines: Vec<Vec<u8>>,
}

impl Made {
    /// The text number `number`: its number decides the length of its records, so that every length has its turn.
    pub fn new(random: &mut Random, size: usize, number: u64) -> Made {
        let bytes = any_bytes(random, size);
        let style = Style::any(random);
        let mut records = data_records(random, &bytes, (number % 256) as usize);
        records.push(Record { kind: 1, address: if random.flag() { 0 } else { random.word() }, data: Vec::new() });
        Made::of(random, bytes, style, records)
    }

    /// A text as the writer of presets writes it.
    pub fn as_written(random: &mut Random, size: usize) -> Made {
        let bytes = any_bytes(random, size);
        let records = even_records(&bytes, 16);
        Made::of(random, bytes, Style::WRITTEN, records)
    }

    pub fn of(random: &mut Random, bytes: Vec<u8>, style: Style, records: Vec<Record>) -> Made {
        let lines = records.iter().map(|record| record.line(random, style, 0)).collect();
        Made { bytes, style, records, lines }
    }

    /// Puts the data records into another order.
    pub fn reorder(&mut self, random: &mut Random) {
        let data = self.records.len() - 1;
        for place in (1..data).rev() {
            let other = random.place(place + 1);
            self.records.swap(place, other);
            self.lines.swap(place, other);
        }
    }

    pub fn text(&self) -> Vec<u8> {
        self.lines.concat()
    }
}

fn any_bytes(random: &mut Random, size: usize) -> Vec<u8> {
    match random.below(4) {
        0 => vec![random.pick(&[0, 0xff, 0x55]); size],
        _ => (0..size).map(|_| random.next() as u8).collect(),
    }
}

/// Records of this length, or of any lengths if it is 0; some without data stand between them, at any address.
fn data_records(random: &mut Random, bytes: &[u8], length: usize) -> Vec<Record> {
    let mut records = Vec::new();
    let mut at = 0;
    while at < bytes.len() {
        if random.one_in(16) {
            records.push(Record { kind: 0, address: random.word(), data: Vec::new() });
        }
        let most = bytes.len() - at;
        let length = if length == 0 { 1 + random.place(255) } else { length }.min(most);
        records.push(Record { kind: 0, address: at as u16, data: bytes[at..at + length].to_vec() });
        at += length;
    }
    records
}

/// Records of this length in order, and the end record.
pub fn even_records(bytes: &[u8], length: usize) -> Vec<Record> {
    let data = (0..).step_by(length).zip(bytes.chunks(length)).map(|(address, data)| Record { kind: 0, address, data: data.to_vec() });
    data.chain([Record { kind: 1, address: 0, data: Vec::new() }]).collect()
}
