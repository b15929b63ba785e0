//! CRC-64/XZ, sixteen bytes at a time.

/// The polynomial of ECMA-182, its bits reversed.
const POLYNOMIAL: u64 = 0xc96c_5795_d787_0f42;

/// What a byte adds when so many bytes stand behind it.
static TABLES: [[u64; 256]; 16] = tables();

const fn tables() -> [[u64; 256]; 16] {
    let mut tables = [[0; 256]; 16];
    let mut place = 0;
    while place < 16 * 256 {
        let (table, byte) = (place / 256, place % 256);
        tables[table][byte] = match table {
            0 => eight_bits(byte as u64),
            _ => one_byte(tables[table - 1][byte], &tables[0]),
        };
        place += 1;
    }
    tables
}

const fn eight_bits(mut crc: u64) -> u64 {
    let mut bit = 0;
    while bit < 8 {
        crc = (crc >> 1) ^ if crc & 1 == 1 { POLYNOMIAL } else { 0 };
        bit += 1;
    }
    crc
}

const fn one_byte(crc: u64, table: &[u64; 256]) -> u64 {
    (crc >> 8) ^ table[(crc & 0xff) as usize]
}

/// The check of what was added so far.
#[derive(Clone, Copy)]
pub struct Crc(u64);

impl Crc {
    pub fn new() -> Crc {
        Crc(u64::MAX)
    }

    pub fn add(&mut self, bytes: &[u8]) {
        let mut crc = self.0;
        let mut sixteens = bytes.chunks_exact(16);
        for sixteen in &mut sixteens {
            crc = eight_bytes(&sixteen[..8], crc, 8) ^ eight_bytes(&sixteen[8..], 0, 0);
        }
        for byte in sixteens.remainder() {
            crc = one_byte(crc ^ u64::from(*byte), &TABLES[0]);
        }
        self.0 = crc;
    }

    pub fn value(self) -> u64 {
        !self.0
    }
}

/// What eight bytes come to, with this many bytes behind them.
#[inline(always)]
fn eight_bytes(bytes: &[u8], before: u64, behind: usize) -> u64 {
    let word = u64::from_le_bytes(bytes.try_into().unwrap_or_default()) ^ before;
    (0..8).fold(0, |sum, place| sum ^ TABLES[behind + 7 - place][(word >> (8 * place)) as usize & 0xff])
}

#[cfg(test)]
mod tests {
    use super::*;

    fn of(bytes: &[u8]) -> u64 {
        let mut crc = Crc::new();
        crc.add(bytes);
        crc.value()
    }

    #[test]
    fn the_check_value_is_the_published_one() {
        assert_eq!(of(b"123456789"), 0x995d_c9bb_df19_39fa);
        assert_eq!(of(b""), 0);
    }

    #[test]
    fn it_is_the_same_bit_by_bit_and_in_any_pieces() {
        let bytes: Vec<u8> = (0..1000u32).map(|n| (n * n / 7) as u8).collect();
        let slow = !bytes.iter().fold(u64::MAX, |crc, byte| eight_bits((crc ^ u64::from(*byte)) & 0xff) ^ ((crc ^ u64::from(*byte)) >> 8));
        assert_eq!(of(&bytes), slow);
        for length in 1..40 {
            let mut crc = Crc::new();
            bytes.chunks(length).for_each(|piece| crc.add(piece));
            assert_eq!(crc.value(), slow, "pieces of {length}");
        }
    }

    /// Why a check leaves out the checks before it: with its own check behind it everything comes to the same.
    #[test]
    fn a_check_behind_its_bytes_forgets_them() {
        let signed = |bytes: &[u8]| of(&[bytes, &of(bytes).to_le_bytes()].concat());
        assert_eq!(signed(b"one block"), signed(b"another block"));
    }
}
