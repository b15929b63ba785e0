//! Text from files, made harmless in HTML.

/// A text as it may stand between tags and in quoted attributes: whatever it says, it is text. A colon is written as a reference, so that
/// no name looks like an address to whoever searches the page; what HTML has no place for becomes the replacement character.
pub fn text(from: &str) -> String {
    let mut escaped = String::with_capacity(from.len());
    for letter in from.chars() {
        match letter {
            '&' => escaped.push_str("&amp;"),
            '<' => escaped.push_str("&lt;"),
            '>' => escaped.push_str("&gt;"),
            '"' => escaped.push_str("&quot;"),
            '\'' => escaped.push_str("&#39;"),
            ':' => escaped.push_str("&#58;"),
            '\n' | '\t' => escaped.push(letter),
            _ if letter.is_control() || is_no_character(letter) => escaped.push(char::REPLACEMENT_CHARACTER),
            _ => escaped.push(letter),
        }
    }
    escaped
}

/// A name in a text of its own direction, so that letters that turn the direction turn nothing beside it.
pub fn name(from: &str) -> String {
    format!("<bdi>{}</bdi>", text(from))
}

fn is_no_character(letter: char) -> bool {
    let code = letter as u32;
    code & 0xfffe == 0xfffe || (0xfdd0..=0xfdef).contains(&code)
}

#[cfg(test)]
mod tests {
    use super::*;

    #[test]
    fn what_means_something_in_html_is_written_as_a_reference() {
        assert_eq!(text("<b a=\"1\" c='2'>&amp;</b>"), "&lt;b a=&quot;1&quot; c=&#39;2&#39;&gt;&amp;amp;&lt;/b&gt;");
        assert_eq!(text("https://x"), "https&#58;//x");
        assert_eq!(name("<i>"), "<bdi>&lt;i&gt;</bdi>");
    }

    #[test]
    fn what_html_has_no_place_for_is_replaced() {
        assert_eq!(text("a\0b\u{1b}c\u{85}d\u{fffe}e\u{1ffff}f\u{fdd0}g"), "a\u{fffd}b\u{fffd}c\u{fffd}d\u{fffd}e\u{fffd}f\u{fffd}g");
        assert_eq!(text("Kanal 3 – Français\n\tΔ 通訳"), "Kanal 3 – Français\n\tΔ 通訳");
    }
}
