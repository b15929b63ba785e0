//! The strip of a track over the whole time: how loud what was sent is, where it differs, what is missing.

use crate::report::axis::Axis;
use crate::report::escape;
use crate::report::svg::{drawing, number, path, rectangle, words, Frame, Steps};
use crate::report::{bands, sentence};
use crate::sound::levels;
use crate::tracks::findings::{Difference, Findings};
use crate::tracks::time::{self, Start};

/// The drawings of a track's own part: their width, and where time begins and ends in them, so that they stand under each other.
pub const WIDTH: f64 = 960.0;
const LEFT: f64 = 52.0;
const RIGHT: f64 = 952.0;

/// Ticks of an axis as wide as this.
pub const TICKS: u64 = 8;

/// Decibels from the top of the strip to its bottom.
const RANGE: f64 = 60.0;

/// Room above the strip for the marker of the first difference, and below it for the times.
const MARKER: f64 = 24.0;
const TIMES: f64 = 19.0;

pub fn frame(axis: Axis) -> Frame {
    Frame { axis, left: LEFT, width: RIGHT - LEFT }
}

/// Higher where there is something to see.
pub fn strip(findings: &Findings, axis: Axis, start: Start) -> String {
    let frame = frame(axis);
    let (top, height) = if findings.first.is_some() { (MARKER, 72.0) } else { (6.0, 44.0) };
    let bottom = top + height;
    let mut content = rectangle("ground", LEFT, RIGHT, top, height);
    content.push_str(&path("level", &level(findings, &frame, top, height)));
    content.push_str(&scale(&frame, top, height));
    content.push_str(&missing(findings, &frame, top, height));
    content.push_str(&bands::drawn(findings, &frame, "veil", top, height));
    content.push_str(&findings.first.as_ref().map_or_else(String::new, |first| marker(findings, first, &frame, bottom, start)));
    content.push_str(&frame.labels(TICKS, bottom + TIMES - 5.0));
    let label = escape::text(&sentence::sentence(findings, start));
    drawing("strip", WIDTH, bottom + TIMES, &label, &content)
}

/// The loudest sample of each column.
fn level(findings: &Findings, frame: &Frame, top: f64, height: f64) -> String {
    let mut steps = Steps::default();
    let mut sample = 0;
    for column in &findings.strip.columns {
        let below = (-levels::decibels(f64::from(column.peak) / levels::FULL_SCALE)).clamp(0.0, RANGE);
        steps.push(frame.x(sample), frame.x(sample + column.samples), top + height * below / RANGE);
        sample += column.samples;
    }
    steps.area(top + height)
}

/// The levels at the left and lines at the times.
fn scale(frame: &Frame, top: f64, height: f64) -> String {
    let label = |y: f64, text: &str| words("label", LEFT - 6.0, y, "end", text);
    let (upper, lower) = (label(top + 8.0, "0 dB"), label(top + height, "\u{2212}60 dB"));
    format!("{}{upper}{lower}", frame.lines(TICKS, top, top + height + 4.0))
}

fn missing(findings: &Findings, frame: &Frame, top: f64, height: f64) -> String {
    let Some((from, to)) = bands::missing(findings, frame) else { return String::new() };
    let label = match to - from > 60.0 {
        true => words("over", (from + to) / 2.0, top + height / 2.0 + 4.0, "middle", "missing"),
        false => String::new(),
    };
    format!("{}{label}", rectangle("crossed", from, to, top, height))
}

/// A line at the first difference, with its time above, on the side where there is room.
fn marker(findings: &Findings, first: &Difference, frame: &Frame, bottom: f64, start: Start) -> String {
    let x = frame.x(first.sample);
    let when = match findings.rate {
        Some(_) => time::at(first.sample, findings.rate, start),
        None => format!("sample {}", first.sample),
    };
    let (anchor, beside) = if x > (frame.left + frame.right()) / 2.0 { ("end", -9.0) } else { ("start", 9.0) };
    let text = words("first", x + beside, 15.0, anchor, &format!("first difference: {when}"));
    let triangle = path("triangle", &format!("M{} 8h12l-6 12z", number(x - 6.0)));
    let line = path("first-line", &format!("M{} 16V{}", number(x), number(bottom)));
    format!("{line}{triangle}{text}")
}

#[cfg(test)]
mod tests {
    use super::*;
    use crate::report::axis::Sitting;
    use crate::tracks::samples;

    fn drawn(findings: &Findings) -> String {
        let sitting = Sitting::of(std::slice::from_ref(findings), Start(None));
        strip(findings, sitting.own_axis(findings), Start(None))
    }

    #[test]
    fn a_difference_of_one_sample_is_drawn_and_named() {
        let drawn = drawn(&samples::flipped("x", 40_000));
        assert!(drawn.contains("class=\"red\"") && drawn.contains("first difference: 0:00:05.000"), "{drawn}");
    }

    #[test]
    fn what_is_missing_is_crossed() {
        assert!(drawn(&samples::cut("x", 40_000)).contains("class=\"crossed\""));
        assert!(!drawn(&samples::right("x")).contains("class=\"crossed\""));
    }

    #[test]
    fn silence_and_nothing_at_all_are_drawn_without_a_fault() {
        for findings in [samples::silent("x"), Findings::new("x"), samples::unreadable("x")] {
            let drawn = drawn(&findings);
            assert!(!drawn.contains("NaN") && !drawn.contains("inf"), "{drawn}");
        }
    }
}
