//! A text's lines, and what a line holds between its colon and its ending.

/// What the line feeds end, each with its ending, and what stands behind the last line feed, if anything.
pub fn lines(text: &[u8]) -> impl Iterator<Item = &[u8]> {
    text.split_inclusive(|character| *character == b'\n')
}

/// None if the colon or the ending is not there.
pub fn inner(line: &[u8]) -> Option<&[u8]> {
    without_ending(line)?.strip_prefix(b":")
}

/// "Lines end with a line feed or with carriage return and line feed."
fn without_ending(line: &[u8]) -> Option<&[u8]> {
    let before_feed = line.strip_suffix(b"\n")?;
    Some(before_feed.strip_suffix(b"\r").unwrap_or(before_feed))
}

#[cfg(test)]
mod tests {
    use super::*;

    #[test]
    fn what_stands_behind_the_last_line_feed_is_a_line_too() {
        assert_eq!(lines(b"a\r\n\nb").collect::<Vec<_>>(), [b"a\r\n".as_slice(), b"\n", b"b"]);
        assert_eq!(lines(b"a\n").count(), 1);
        assert_eq!(lines(b"").count(), 0);
    }

    #[test]
    fn one_ending_is_taken_off_and_no_more() {
        assert_eq!(inner(b":ab\n"), Some(b"ab".as_slice()));
        assert_eq!(inner(b":ab\r\n"), Some(b"ab".as_slice()));
        assert_eq!(inner(b":ab\r\r\n"), Some(b"ab\r".as_slice()));
        assert_eq!(inner(b":ab\n\n"), Some(b"ab\n".as_slice()));
        assert_eq!(inner(b"::\n"), Some(b":".as_slice()));
    }

    #[test]
    fn no_colon_and_no_ending_are_none() {
        for line in [b"".as_slice(), b"\n", b"\r\n", b":", b":ab", b":ab\r", b"ab\n", b" :ab\n"] {
            assert_eq!(inner(line), None);
        }
    }
}
