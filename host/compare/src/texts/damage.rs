//! What happens to texts: of one byte, of lines, and of records that are wrong although their check byte is right.

use super::made::Made;
use super::record::Record;
use random::Random;

listed!(
    Damage:
    ByteChanged,
    ByteDropped,
    ByteDoubled,
    ByteInserted,
    Cut,
    LinesSwapped,
    LineDropped,
    LineDoubled,
    BlankLine,
    EndingDropped,
    CheckByte,
    RecordType,
    AddressMoved,
    EndWithData,
    EndMoved,
    EndDropped,
    TextBehind,
    SeveralFaults
);

use Damage::*;

impl Damage {
    /// The text of what was made, damaged in this way.
    pub fn done(self, random: &mut Random, made: &Made) -> Vec<u8> {
        if self == SeveralFaults {
            let mut lines = made.lines.clone();
            for _ in 0..2 + random.below(3) {
                let damage =
                    random.pick(&[BlankLine, EndingDropped, CheckByte, RecordType, AddressMoved, EndWithData, LineDoubled, LineDropped]);
                damage.to_lines(random, made, &mut lines);
            }
            return of_bytes(random.pick(&[ByteChanged, ByteDropped, TextBehind]), random, lines.concat());
        }
        let mut lines = made.lines.clone();
        self.to_lines(random, made, &mut lines);
        of_bytes(self, random, lines.concat())
    }

    /// Damage to whole lines.
    fn to_lines(self, random: &mut Random, made: &Made, lines: &mut Vec<Vec<u8>>) {
        if lines.is_empty() {
            return;
        }
        let place = some_line(random, lines.len());
        let record = &made.records[place.min(made.records.len() - 1)];
        let mut written = |record: Record, check_off: u8| record.line(random, made.style, check_off);
        match self {
            CheckByte => lines[place] = written(record.clone(), 1 + (place % 255) as u8),
            RecordType => lines[place] = written(Record { kind: random_type(place), ..record.clone() }, 0),
            EndWithData => {
                lines[place] = written(Record { kind: 1, address: 0, data: vec![place as u8; 1 + place % 3] }, (place % 2) as u8)
            }
            AddressMoved => {
                let address = record.address.wrapping_add(random.pick(&[1, 2, 4, 16, 1024, 2048, 0xffff, 0x8000]));
                lines[place] = Record { address, ..record.clone() }.line(random, made.style, 0);
            }
            LinesSwapped => {
                let other = some_line(random, lines.len());
                lines.swap(place, other);
            }
            LineDropped => drop(lines.remove(place)),
            LineDoubled => {
                let doubled = lines[place].clone();
                let other = some_line(random, lines.len() + 1);
                lines.insert(other, doubled);
            }
            BlankLine => {
                let blank: &[u8] = random.pick(&[b"\n".as_slice(), b"\r\n", b" \n", b":\n"]);
                lines.insert(some_line(random, lines.len() + 1), blank.to_vec());
            }
            EndingDropped => {
                let dropped = 1 + random.place(2);
                let length = lines[place].len().saturating_sub(dropped);
                lines[place].truncate(length);
            }
            EndMoved => {
                let end = lines.pop().unwrap_or_default();
                lines.insert(some_line(random, lines.len() + 1), end);
            }
            EndDropped => drop(lines.pop()),
            _ => {}
        }
    }
}

/// A type that a data or an end record does not have.
fn random_type(place: usize) -> u8 {
    [2, 3, 4, 5, 0x10, 0x80, 0xff][place % 7]
}

/// The first line, the last two, or any.
fn some_line(random: &mut Random, lines: usize) -> usize {
    match random.below(4) {
        0 => 0,
        1 => lines.saturating_sub(1),
        2 => lines.saturating_sub(2),
        _ => random.place(lines),
    }
}

/// Damage to bytes, wherever they stand.
fn of_bytes(damage: Damage, random: &mut Random, mut text: Vec<u8>) -> Vec<u8> {
    if text.is_empty() {
        return text;
    }
    let place = some_byte(random, text.len());
    match damage {
        ByteChanged => text[place] = other_byte(random, text[place]),
        ByteDropped => drop(text.remove(place)),
        ByteDoubled => text.insert(place, text[place]),
        ByteInserted => text.insert(place, random.pick(&[b'0', b'F', b'a', b':', b' ', b'\t', b'\r', b'\n', 0, 0x80, 0xff])),
        Cut => text.truncate(place),
        TextBehind => {
            let behind: &[u8] = random.pick(&[b"\n".as_slice(), b"\r\n", b" ", b"\x1a", b"\0", b":00000001FF\n", b"; end\n", b"x"]);
            text.extend_from_slice(behind);
        }
        _ => {}
    }
    text
}

fn some_byte(random: &mut Random, length: usize) -> usize {
    match random.below(4) {
        0 => random.place(40.min(length)),
        1 => length - 1 - random.place(40.min(length)),
        _ => random.place(length),
    }
}

/// One bit, another digit, or any byte.
fn other_byte(random: &mut Random, byte: u8) -> u8 {
    match random.below(3) {
        0 => byte ^ (1 << random.below(8)),
        1 => random.pick(b"0123456789ABCDEFabcdef"),
        _ => random.next() as u8,
    }
}
