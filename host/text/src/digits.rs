//! Characters as the bytes that they spell, two to a byte.

/// The bytes spelled; none if a character is no digit or the last one has no partner.
pub fn bytes(characters: &[u8]) -> Option<Vec<u8>> {
    let mut bytes = Vec::with_capacity(characters.len() / 2);
    for pair in characters.chunks(2) {
        bytes.push(byte(pair)?);
    }
    Some(bytes)
}

fn byte(pair: &[u8]) -> Option<u8> {
    match pair {
        [high, low] => Some(digit(*high)? * 16 + digit(*low)?),
        _ => None,
    }
}

/// "Hex digits may be capitals or small letters when read."
fn digit(character: u8) -> Option<u8> {
    char::from(character).to_digit(16).map(|value| value as u8)
}

#[cfg(test)]
mod tests {
    use super::*;

    #[test]
    fn twenty_two_characters_are_digits_and_no_other() {
        let digits = b"0123456789ABCDEFabcdef";
        let values = [0, 1, 2, 3, 4, 5, 6, 7, 8, 9, 10, 11, 12, 13, 14, 15, 10, 11, 12, 13, 14, 15];
        assert!(digits.iter().zip(values).all(|(character, value)| digit(*character) == Some(value)));
        assert_eq!((0..=255).filter(|character| digit(*character).is_some()).count(), digits.len());
    }

    #[test]
    fn the_first_of_two_characters_is_the_high_one() {
        assert_eq!(bytes(b"12fF0aA0"), Some(vec![0x12, 0xFF, 0x0A, 0xA0]));
        assert_eq!(bytes(b""), Some(vec![]));
    }

    #[test]
    fn half_a_byte_is_none() {
        assert_eq!(bytes(b"1"), None);
        assert_eq!(bytes(b"123"), None);
    }
}
