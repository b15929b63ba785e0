//! Over how much of a track it is wrong: what its line on the terminal and its sentence on the page both tell.

use crate::tracks::findings::{Column, Findings};

/// Fewer wrong samples than one in so many, between the first and the last, are counted and not called a stretch.
const SPARSE: u64 = 100;

#[derive(Clone, Copy, Debug, PartialEq, Eq)]
pub enum Extent {
    /// One sample.
    One,
    /// Samples with far more that are right between them.
    Scattered,
    Stretch {
        /// Until the end.
        lasts: bool,
        now_and_then: bool,
    },
}

impl Extent {
    /// Of a track that differs at this sample first.
    pub fn of(findings: &Findings, first: u64) -> Extent {
        let stretch = findings.last.saturating_sub(first) + 1;
        match findings.differing {
            0 | 1 => Extent::One,
            wrong if wrong.saturating_mul(SPARSE) < stretch => Extent::Scattered,
            _ => Extent::Stretch { lasts: lasts(findings, stretch), now_and_then: is_broken(findings) },
        }
    }
}

/// Whether it differs until the end, or as good as that: the last second may be silence, if it is not longer than the stretch.
fn lasts(findings: &Findings, stretch: u64) -> bool {
    let left = findings.samples.saturating_sub(findings.last + 1);
    left <= u64::from(findings.rate.unwrap_or(0)).max(findings.samples / 100).min(stretch)
}

/// Whether less than half of the columns from the first that differs to the last do.
fn is_broken(findings: &Findings) -> bool {
    let differs = |column: &Column| column.differing > 0;
    let columns = &findings.strip.columns;
    let (Some(first), Some(last)) = (columns.iter().position(differs), columns.iter().rposition(differs)) else { return false };
    let wrong = columns.iter().filter(|column| differs(column)).count();
    2 * wrong < last - first + 1
}
