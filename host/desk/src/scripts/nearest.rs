//! The name that was probably meant.

/// The name of a list that takes the fewest changes of letters, if they are at most a third of it.
pub fn nearest<'a>(meant: &str, names: impl IntoIterator<Item = &'a str>) -> Option<&'a str> {
    // Nobody misspells a name at such a length.
    if meant.len() > 40 {
        return None;
    }
    let meant = meant.to_ascii_lowercase();
    let changes = names.into_iter().map(|name| (changes(&meant, &name.to_ascii_lowercase()), name));
    let (changes, name) = changes.min_by_key(|(changes, _)| *changes)?;
    (changes * 3 <= name.len().max(3)).then_some(name)
}

/// How many letters are to be changed, put in or left out to make one text of the other.
fn changes(one: &str, other: &str) -> usize {
    let other: Vec<char> = other.chars().collect();
    let mut row: Vec<usize> = (0..=other.len()).collect();
    for (at, letter) in one.chars().enumerate() {
        let mut corner = row[0];
        row[0] = at + 1;
        for place in 0..other.len() {
            let changed = corner + usize::from(letter != other[place]);
            corner = row[place + 1];
            row[place + 1] = changed.min(row[place] + 1).min(corner + 1);
        }
    }
    row[other.len()]
}

#[cfg(test)]
mod tests {
    use super::*;

    #[test]
    fn the_fewest_changes_win() {
        let names = ["program", "run", "reset", "sent"];
        assert_eq!(nearest("progam", names), Some("program"));
        assert_eq!(nearest("PROGRAMM", names), Some("program"));
        assert_eq!(nearest("rum", names), Some("run"));
        assert_eq!(nearest("send", names), Some("sent"));
        assert_eq!(nearest("dance", names), None);
        assert_eq!(nearest("", names), None);
        assert_eq!(nearest(&"x".repeat(100), names), None);
    }

    #[test]
    fn changes_are_counted() {
        assert_eq!(changes("", "abc"), 3);
        assert_eq!(changes("abc", ""), 3);
        assert_eq!(changes("kitten", "sitting"), 3);
    }
}
