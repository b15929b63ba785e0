//! The tracks of one call, checked side by side on as many threads as there are cores.

use crate::progress::{Meter, Progress};
use crate::tracks::findings::Findings;
use crate::tracks::list::{From, Track};
use crate::tracks::{played, replayed};
use std::fs;
use std::path::PathBuf;
use std::sync::atomic::{AtomicUsize, Ordering};
use std::sync::Mutex;
use std::thread;

/// Checks the tracks; the findings come in their order.
pub fn check(tracks: &[Track]) -> Vec<Findings> {
    let meters: Vec<Meter> = tracks.iter().map(|_| Meter::default()).collect();
    let progress = Progress::of(what(tracks), size(tracks), meters.clone());
    let (next, found) = (AtomicUsize::new(0), Mutex::new(Vec::new()));
    let threads = thread::available_parallelism().map_or(1, |cores| cores.get()).min(tracks.len());
    let work = || loop {
        let at = next.fetch_add(1, Ordering::Relaxed);
        let (Some(track), Some(meter)) = (tracks.get(at), meters.get(at)) else { break };
        let findings = track_check(track, meter);
        found.lock().unwrap_or_else(|poisoned| poisoned.into_inner()).push((at, findings));
    };
    thread::scope(|scope| {
        for _ in 1..threads {
            scope.spawn(work);
        }
        work();
    });
    drop(progress);
    let mut found = found.into_inner().unwrap_or_else(|poisoned| poisoned.into_inner());
    found.sort_by_key(|(at, _)| *at);
    let mut found: Vec<Findings> = found.into_iter().map(|(_, findings)| findings).collect();
    tell_unequal_lengths(&mut found);
    found
}

fn track_check(track: &Track, meter: &Meter) -> Findings {
    match &track.from {
        From::Record(record) => replayed::check(&track.name, record, meter),
        From::Sounds(sounds) => played::check(&track.name, sounds, meter),
    }
}

fn what(tracks: &[Track]) -> String {
    match tracks {
        [track] => track.name.clone(),
        _ => format!("{} tracks", tracks.len()),
    }
}

/// How many bytes there are to read, if all of it is in files.
fn size(tracks: &[Track]) -> Option<u64> {
    let files = tracks.iter().flat_map(|track| track.from.files());
    let sizes = files.map(|file| fs::metadata(file).ok().filter(|file| file.is_file()).map(|file| file.len()));
    sizes.sum()
}

impl From {
    /// What is read of it from beginning to end.
    fn files(&self) -> Vec<&PathBuf> {
        match self {
            From::Record(record) => vec![record],
            From::Sounds(sounds) => sounds.sources.iter().chain([&sounds.sent]).collect(),
        }
    }
}

/// Tracks of one sitting are equally long: a shorter one is not all there. They are compared as times if every rate is known, else as samples.
fn tell_unequal_lengths(found: &mut [Findings]) {
    // What an unreadable track says of its length is not believed.
    let samples = |findings: &Findings| if findings.unreadable.is_some() { findings.samples } else { findings.whole() };
    let rates_are_known = found.iter().all(|findings| findings.rate.is_some() || findings.samples == 0);
    let length = |findings: &Findings| {
        let rate = findings.rate.filter(|_| rates_are_known).unwrap_or(1);
        u128::from(samples(findings)) * 1_000_000_000 / u128::from(rate)
    };
    let Some(longest) = found.iter().max_by_key(|findings| length(findings)) else { return };
    let (most, name, of_longest) = (length(longest), longest.name.clone(), samples(longest));
    for findings in found.iter_mut().filter(|findings| findings.unreadable.is_none() && length(findings) < most) {
        let message = format!("{} samples: {name} of the same call has {of_longest}", samples(findings));
        findings.missing.get_or_insert(message);
    }
}
