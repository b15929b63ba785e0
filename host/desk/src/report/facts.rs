//! Facts as a list of terms and what is said of each.

use crate::report::escape;

/// Pairs of a word and what it means; nothing for none.
pub fn list(class: &str, pairs: &[(&str, String)]) -> String {
    let pairs: String = pairs.iter().map(|(term, said)| format!("<dt>{term}</dt><dd>{}</dd>\n", escape::text(said))).collect();
    match pairs.is_empty() {
        true => String::new(),
        false => format!("<dl class=\"{class}\">\n{pairs}</dl>\n"),
    }
}
