//! A line of a listing.

/// One word of a listing, the line it is assembled from, and that line's number in our copy of the manual if it stands there.
#[derive(Clone, Copy)]
pub struct Line {
    pub word: u32,
    pub source: &'static str,
    pub number: Option<u16>,
}

/// A line of the manual.
pub const fn printed(number: u16, word: u32, source: &'static str) -> Line {
    Line { word, source, number: Some(number) }
}

/// A line that the manual leaves to its reader, such as the call of a subroutine.
pub const fn ours(word: u32, source: &'static str) -> Line {
    Line { word, source, number: None }
}
