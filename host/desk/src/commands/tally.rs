//! How many of what was checked came out how: the last line of a check, and its end.

use crate::fault::Fault;
use crate::numbers::counted;
use crate::output::tell;
use std::fmt;

/// What is checked, and what is said of one and of several that did not come out well.
#[derive(Clone, Copy)]
pub struct Subject {
    pub name: &'static str,
    pub is_not_good: &'static str,
    pub are_not_good: &'static str,
}

/// The verdicts with their counts: the first is the good one, the last is of what could not be read.
pub struct Tally<const VERDICTS: usize> {
    subject: Subject,
    counts: [(&'static str, usize); VERDICTS],
}

impl<const VERDICTS: usize> Tally<VERDICTS> {
    pub fn new(subject: Subject, verdicts: [&'static str; VERDICTS]) -> Tally<VERDICTS> {
        Tally { subject, counts: verdicts.map(|verdict| (verdict, 0)) }
    }

    pub fn count(&mut self, verdict: &str) {
        self.counts.iter_mut().filter(|(name, _)| *name == verdict).for_each(|(_, count)| *count += 1);
    }

    fn all(&self) -> usize {
        self.counts.iter().map(|(_, count)| count).sum()
    }

    /// How the check ends: the verdict is the status, and what could not be written is told besides.
    pub fn ended(&self, written: Result<(), Fault>) -> Result<(), Fault> {
        match (self.verdict(), written) {
            (Ok(()), written) => written,
            (Err(verdict), written) => {
                written.unwrap_or_else(|fault| tell(&fault.to_string()));
                Err(verdict)
            }
        }
    }

    /// All are good, or the check failed, or something could not be read.
    fn verdict(&self) -> Result<(), Fault> {
        let Subject { name, is_not_good, are_not_good } = self.subject;
        let good = self.counts.first().map_or(0, |(_, count)| *count);
        let unreadable = self.counts.last().map_or(0, |(_, count)| *count);
        let message = match (self.all(), self.all() - good) {
            (_, 0) => return Ok(()),
            (1, _) => format!("the {name} {is_not_good}"),
            (all, 1) => format!("1 of {all} {name}s {is_not_good}"),
            (all, others) => format!("{others} of {all} {name}s {are_not_good}"),
        };
        Err(if unreadable > 0 { Fault::bad(message) } else { Fault::failed(message) })
    }
}

impl<const VERDICTS: usize> fmt::Display for Tally<VERDICTS> {
    fn fmt(&self, f: &mut fmt::Formatter) -> fmt::Result {
        let counts = self.counts.map(|(verdict, count)| format!("{verdict} {count}"));
        write!(f, "{}: {}", counted(self.all(), self.subject.name), counts.join(", "))
    }
}
