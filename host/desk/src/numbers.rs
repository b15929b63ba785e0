//! Numbers as the manual writes them: 1234H is hexadecimal, 1234 decimal.

/// How numbers are written, for messages.
pub const WRITTEN: &str = "numbers are written 1234H or 4660";

/// The number of a text, if it is one that 32 bits hold.
pub fn parse(text: &str) -> Option<u32> {
    parse_long(text).and_then(|number| u32::try_from(number).ok())
}

/// The number of a text, if it is one that 64 bits hold.
pub fn parse_long(text: &str) -> Option<u64> {
    let (digits, radix) = match text.strip_suffix(['H', 'h']) {
        Some(digits) => (digits, 16),
        None => (text, 10),
    };
    // `from_str_radix` would take a sign.
    if digits.is_empty() || !digits.bytes().all(|byte| byte.is_ascii_alphanumeric()) {
        return None;
    }
    u64::from_str_radix(digits, radix).ok()
}

/// So many of something.
pub fn counted(count: usize, name: &str) -> String {
    format!("{count} {name}{}", if count == 1 { "" } else { "s" })
}

/// Four digits and an H.
pub fn register(value: u16) -> String {
    format!("{value:04X}H")
}

/// Six digits and an H.
pub fn word(value: u32) -> String {
    format!("{value:06X}H")
}

/// An instruction address or a data ROM pointer: three digits and an H.
pub fn address(value: u16) -> String {
    format!("{value:03X}H")
}

#[cfg(test)]
mod tests {
    use super::*;

    #[test]
    fn hexadecimal_has_an_h_and_decimal_none() {
        assert_eq!(parse("1234H"), Some(0x1234));
        assert_eq!(parse("0ffh"), Some(0xff));
        assert_eq!(parse("FFFFH"), Some(0xffff));
        assert_eq!(parse("1234"), Some(1234));
        assert_eq!(parse("0FFFFFFFFH"), Some(u32::MAX));
    }

    #[test]
    fn what_is_no_number_is_none() {
        for text in ["", "H", "12A", "-1", "+1", "0x10", "1_000", "100000000H", "4294967296", "1 2", "１"] {
            assert_eq!(parse(text), None, "{text:?}");
        }
        assert_eq!(parse_long("4294967296"), Some(1 << 32));
        assert_eq!(parse_long("0FFFFFFFFFFFFFFFFH"), Some(u64::MAX));
        assert_eq!(parse_long("10000000000000000H"), None);
    }
}
