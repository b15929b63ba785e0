//! How often each number of a field was met.

pub struct Field {
    name: &'static str,
    counts: Vec<u64>,
    cannot_be: Vec<usize>,
}

impl Field {
    /// Each of so many numbers must be met.
    pub fn new(name: &'static str, codes: usize) -> Field {
        Field { name, counts: vec![0; codes], cannot_be: Vec::new() }
    }

    /// But these must not.
    pub fn without(mut self, codes: impl IntoIterator<Item = usize>) -> Field {
        self.cannot_be.extend(codes);
        self
    }

    pub fn met(&mut self, code: usize) {
        self.counts[code] += 1;
    }

    pub fn met_if(&mut self, code: usize, holds: bool) {
        self.counts[code] += u64::from(holds);
    }

    /// What was never met and should have been, and what was met and cannot be.
    pub fn faults(&self) -> Vec<String> {
        let wrong = self.counts.iter().enumerate().filter(|(code, count)| (**count == 0) != self.cannot_be.contains(code));
        let told = |count: u64| if count == 0 { "was never met" } else { "was met" };
        wrong.map(|(code, count)| format!("{} {code} {}", self.name, told(*count))).collect()
    }
}
