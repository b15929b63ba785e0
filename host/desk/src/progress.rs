//! Progress of long work: one line on the standard error, rewritten a few times a second, and only where a person sees it.

use std::io::{self, IsTerminal, Write};
use std::sync::atomic::{AtomicU64, Ordering};
use std::sync::mpsc::{channel, RecvTimeoutError, Sender};
use std::sync::Arc;
use std::thread::{self, JoinHandle};
use std::time::Duration;

const PAUSE: Duration = Duration::from_millis(250);

/// How far one part of the work is, told by whoever does it.
#[derive(Clone, Default)]
pub struct Meter(Arc<AtomicU64>);

impl Meter {
    #[inline]
    pub fn at(&self, done: u64) {
        self.0.store(done, Ordering::Relaxed);
    }

    fn done(&self) -> u64 {
        self.0.load(Ordering::Relaxed)
    }
}

/// Shows how far the work is, until it is dropped.
pub struct Progress {
    shower: Option<(Sender<()>, JoinHandle<()>)>,
}

impl Progress {
    /// Work of so many steps in all, or of a number that is not known.
    pub fn of(what: impl Into<String>, all: Option<u64>, meters: Vec<Meter>) -> Progress {
        if !io::stderr().is_terminal() {
            return Progress { shower: None };
        }
        let what = what.into();
        let (end, ended) = channel();
        let shower = thread::spawn(move || {
            let mut shown = false;
            while let Err(RecvTimeoutError::Timeout) = ended.recv_timeout(PAUSE) {
                put(&line(&what, all, meters.iter().map(Meter::done).sum()));
                shown = true;
            }
            if shown {
                put("");
            }
        });
        Progress { shower: Some((end, shower)) }
    }
}

fn line(what: &str, all: Option<u64>, done: u64) -> String {
    match all {
        Some(all) => format!("{what}: {} %", (u128::from(done) * 100 / u128::from(all.max(1))).min(100)),
        None => format!("{what}: {done}"),
    }
}

impl Drop for Progress {
    fn drop(&mut self) {
        if let Some((end, shower)) = self.shower.take() {
            drop(end);
            // It ends by itself; a panic in it is no reason to stop the work.
            let _ = shower.join();
        }
    }
}

/// Puts a text in place of the line. A terminal that went away is no reason to stop.
fn put(text: &str) {
    let mut stderr = io::stderr();
    let _ = write!(stderr, "\r\x1b[K{text}").and_then(|()| stderr.flush());
}
