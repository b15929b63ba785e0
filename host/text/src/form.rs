//! Whether a text has the writer's form, without the writer and without a reader.

/// Characters from a colon to its line feed, and the lines of data.
const LINE: usize = 44;
const LINES: usize = 16;

/// "sixteen records of sixteen bytes and then `:00000001FF`, in capitals, lines ended by a line feed", and nothing else
pub fn in_writers_form(text: &[u8]) -> bool {
    match text.split_at_checked(LINES * LINE) {
        Some((records, b":00000001FF\n")) => (0..).zip(records.chunks_exact(LINE)).all(|(number, line)| is_record(number, line)),
        _ => false,
    }
}

/// A record at sixteen times `number`, so the other three digits of its address are 0.
fn is_record(number: u64, line: &[u8]) -> bool {
    let [b':', b'1', b'0', b'0', b'0', sixteens, b'0', b'0', b'0', digits @ .., b'\n'] = line else {
        return false;
    };
    if value(*sixteens) != Some(number) {
        return false;
    }
    // A reading: a wrong check byte is not the writer's, for "the sum of all bytes from LL to CC is 0 modulo 256".
    let mut sum = 16 + 16 * number;
    for (place, digit) in digits.iter().enumerate() {
        match value(*digit) {
            None => return false,
            Some(high) if place % 2 == 0 => sum += 16 * high,
            Some(low) => sum += low,
        }
    }
    sum.is_multiple_of(256)
}

/// What a digit stands for; none for a small letter, since the writer has capitals.
fn value(character: u8) -> Option<u64> {
    match character {
        b'0'..=b'9' => Some(u64::from(character - b'0')),
        b'A'..=b'F' => Some(u64::from(character - b'A') + 10),
        _ => None,
    }
}

#[cfg(test)]
mod tests {
    use super::*;

    #[test]
    fn sixteen_characters_are_digits_and_small_letters_are_none() {
        let digits: Vec<u8> = (0..=255).filter(|character| value(*character).is_some()).collect();
        assert_eq!(digits, b"0123456789ABCDEF");
        assert!((0..).zip(digits).all(|(number, digit)| value(digit) == Some(number)));
    }

    #[test]
    fn a_record_stands_at_its_own_address() {
        let line = format!(":1000A000{}50\n", "0".repeat(32));
        assert!((0..16).all(|number| is_record(number, line.as_bytes()) == (number == 10)));
    }
}
