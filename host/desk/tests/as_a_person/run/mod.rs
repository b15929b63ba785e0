//! `desk run` as a person uses it: scripts in a folder, what is printed, what is told on the standard error, the exit status.

mod damaged;
mod events;
pub mod examples;
mod expectations;
mod includes;
mod interrupts;
mod lines;
mod printed;
mod refusals;

use crate::folder::{Folder, Ran};

fn run_text(text: &str) -> Ran {
    Folder::new().with("s.desk", text).desk("run s.desk")
}

#[track_caller]
fn succeeds(text: &str, printed: &str) {
    assert_eq!(run_text(text), Ran::new(0, printed, ""), "{text}");
}

/// The script fails, or is bad, with this on the standard error.
#[track_caller]
fn stops(text: &str, status: i32, printed: &str, told: &str) {
    assert_eq!(run_text(text), Ran::new(status, printed, format!("desk: {told}\n")), "{text}");
}
