//! The bytes of a payload as they are taken from its beginning, and its numbers: seven bits a byte, the lowest first (LEB128).

/// The most bytes of a number.
const NUMBER: usize = 5;

/// What cannot be in a payload: what was found, and what was expected.
pub type Wrong = String;

pub struct Cursor<'a> {
    bytes: &'a [u8],
    at: usize,
}

impl<'a> Cursor<'a> {
    pub fn new(bytes: &'a [u8]) -> Cursor<'a> {
        Cursor { bytes, at: 0 }
    }

    /// How many bytes were taken.
    pub fn at(&self) -> usize {
        self.at
    }

    /// How many bytes are left.
    pub fn left(&self) -> usize {
        self.bytes.len() - self.at
    }

    pub fn byte(&mut self) -> Result<u8, Wrong> {
        let byte = self.bytes.get(self.at).copied().ok_or_else(|| too_short(1))?;
        self.at += 1;
        Ok(byte)
    }

    pub fn take(&mut self, count: usize) -> Result<&'a [u8], Wrong> {
        let taken = self.bytes[self.at..].get(..count).ok_or_else(|| too_short(count))?;
        self.at += count;
        Ok(taken)
    }

    pub fn number(&mut self) -> Result<u32, Wrong> {
        let mut number = 0;
        for place in 0..NUMBER {
            let byte = self.byte()?;
            number |= u64::from(byte & 0x7f) << (7 * place);
            if byte < 0x80 {
                return u32::try_from(number).map_err(|_| format!("the number {number}: expected one of 32 bits"));
            }
        }
        Err(format!("a number of more than {NUMBER} bytes: expected one of 32 bits"))
    }

    /// A number from 1 to a limit.
    pub fn count(&mut self, limit: usize, of: &str) -> Result<usize, Wrong> {
        let count = self.number()? as usize;
        match count {
            1.. if count <= limit => Ok(count),
            _ => Err(format!("{count} {of}: expected 1 to {limit}")),
        }
    }
}

fn too_short(count: usize) -> Wrong {
    format!("too few bytes: expected {count} more")
}

/// Appends a number.
#[inline]
pub fn put_number(bytes: &mut Vec<u8>, mut number: u32) {
    while number >= 0x80 {
        bytes.push(number as u8 | 0x80);
        number >>= 7;
    }
    bytes.push(number as u8);
}

#[cfg(test)]
mod tests {
    use super::*;

    #[test]
    fn a_number_is_read_as_it_was_put() {
        for number in [0, 1, 0x7f, 0x80, 300, 0x3fff, 0x4000, 0xffff, u32::MAX - 1, u32::MAX] {
            let mut bytes = Vec::new();
            put_number(&mut bytes, number);
            let mut cursor = Cursor::new(&bytes);
            assert_eq!((cursor.number(), cursor.left()), (Ok(number), 0));
            assert!(Cursor::new(&bytes[..bytes.len() - 1]).number().is_err());
        }
    }

    #[test]
    fn what_32_bits_do_not_hold_is_refused() {
        assert!(Cursor::new(&[0xff, 0xff, 0xff, 0xff, 0x1f]).number().is_err());
        assert!(Cursor::new(&[0x80, 0x80, 0x80, 0x80, 0x80, 0]).number().is_err());
        assert!(Cursor::new(&[1, 2]).take(3).is_err());
    }
}
