//! The foot of the page: what made it, what was compared, and what the verdicts mean.

use crate::report::svg::mark;
use crate::tracks::verdict::Verdict;

pub fn footer() -> String {
    let meanings: String =
        Verdict::ALL.iter().map(|verdict| format!("<li>{}<b>{verdict}</b>: {}</li>\n", mark(*verdict), meaning(*verdict))).collect();
    format!(
        "<footer>\n<p>What was compared: every word that the desk sent, from the first to the last, with the word that the chip sends \
         for the same program, preset and sources. The chip is a proved copy in software; what agrees is equal to the last bit.</p>\n\
         <ul>\n{meanings}</ul>\n<p>What a source has on the track is the gain by which it adds up to the track best. Decibels of a gain: \
         0 dB is as loud as it came in. Decibels of a strip: 0 dB is full scale.</p>\n\
         <p>Made by desk {}. This page is complete in itself and loads nothing.</p>\n</footer>\n",
        env!("CARGO_PKG_VERSION")
    )
}

fn meaning(verdict: Verdict) -> &'static str {
    match verdict {
        Verdict::Agrees => "all of it is there, and every sample is what the chip sends.",
        Verdict::Differs => "at least one sample, or something else that was recorded, is not what the chip does.",
        Verdict::Incomplete => "what is there is what the chip sends, but not all of it is there.",
        Verdict::Unreadable => "the track or what belongs to it cannot be read, or not to its end: nothing is known of the rest.",
    }
}
