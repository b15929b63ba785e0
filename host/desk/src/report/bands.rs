//! Where a track differs, as bands on its strip.

use crate::report::svg::{number, path, Frame};
use crate::tracks::findings::Findings;

/// A narrower band is never drawn: one sample of an hour is seen.
const LEAST: f64 = 3.0;

/// In a narrower band there is no room for hatching: it is all red.
const HATCHED: f64 = 9.0;

#[derive(Clone, Copy, Debug, PartialEq)]
struct Band {
    from: f64,
    to: f64,
}

impl Band {
    fn width(self) -> f64 {
        self.to - self.from
    }
}

/// The bands in which columns differ; those that touch are one.
fn bands(findings: &Findings, frame: &Frame) -> Vec<Band> {
    let mut bands: Vec<Band> = Vec::new();
    let mut sample = 0;
    for column in &findings.strip.columns {
        let band = Band { from: frame.x(sample), to: frame.x(sample + column.samples) };
        sample += column.samples;
        if column.differing == 0 {
            continue;
        }
        let band = widened(band, frame);
        match bands.last_mut() {
            Some(last) if band.from <= last.to => last.to = band.to.max(last.to),
            _ => bands.push(band),
        }
    }
    bands
}

fn widened(band: Band, frame: &Frame) -> Band {
    if band.width() >= LEAST {
        return band;
    }
    let from = ((band.from + band.to - LEAST) / 2.0).clamp(frame.left, frame.right() - LEAST);
    Band { from, to: from + LEAST }
}

/// The bands between two heights: the wide ones of this class, the narrow ones all red.
pub fn drawn(findings: &Findings, frame: &Frame, class: &str, top: f64, height: f64) -> String {
    let bands = bands(findings, frame);
    let one = |band: &Band| {
        let (from, width) = (number(band.from), number(band.width()));
        format!("M{from} {}h{width}v{}h-{width}z", number(top), number(height))
    };
    let (wide, narrow): (Vec<Band>, Vec<Band>) = bands.iter().partition(|band| band.width() >= HATCHED);
    let all = |bands: &[Band]| bands.iter().map(one).collect::<String>();
    format!("{}{}", path(class, &all(&wide)), path("red", &all(&narrow)))
}

/// What should be there and is not, as a stretch of the drawing: up to the track's length or, where a track breaks off and nothing tells
/// how long it is, up to the end of the longest track.
pub fn missing(findings: &Findings, frame: &Frame) -> Option<(f64, f64)> {
    let breaks_off = findings.missing.is_some() || findings.unreadable.is_some();
    let to = match findings.length {
        Some(length) => frame.x(length),
        None if breaks_off => frame.right(),
        None => return None,
    };
    let from = frame.x(findings.samples);
    (from < to).then_some((from, to))
}

#[cfg(test)]
mod tests {
    use super::*;
    use crate::report::axis::Sitting;
    use crate::tracks::samples;
    use crate::tracks::time::Start;

    fn of(findings: &Findings) -> Vec<Band> {
        let axis = Sitting::of(std::slice::from_ref(findings), Start(None)).axis(findings);
        bands(findings, &Frame { axis, left: 50.0, width: 900.0 })
    }

    #[test]
    fn one_sample_is_drawn_wherever_it_is() {
        for sample in [0, 1, 40_000, samples::LENGTH - 1] {
            let bands = of(&samples::flipped("x", sample));
            assert_eq!(bands.len(), 1, "{sample}");
            let there = 50.0 + 900.0 * sample as f64 / samples::LENGTH as f64;
            assert!(bands[0].width() >= LEAST && bands[0].from <= there && there <= bands[0].to, "{sample} {bands:?}");
            assert!(bands[0].from >= 50.0 && bands[0].to <= 950.0, "{sample} {bands:?}");
        }
    }

    #[test]
    fn neighbours_are_one_band_and_others_are_not() {
        let bands = of(&samples::disturbed("x", |at| (8000..16_000).contains(&at) || at >= 72_000));
        assert_eq!(bands.len(), 2);
        assert!((bands[0].from - 140.0).abs() < 2.0 && (bands[0].to - 230.0).abs() < 2.0, "{bands:?}");
        assert_eq!(bands[1].to, 950.0);
        assert_eq!(of(&samples::right("x")), []);
        assert_eq!(of(&Findings::new("x")), []);
    }

    #[test]
    fn what_is_missing_reaches_to_the_length_or_to_the_end_of_the_longest() {
        let mut tracks = [samples::cut("cut", 20_000), samples::right("right")];
        let sitting = Sitting::of(&tracks, Start(None));
        let of = |findings: &Findings| missing(findings, &Frame { axis: sitting.axis(findings), left: 0.0, width: 800.0 });
        tracks[0].length = Some(40_000);
        assert_eq!(of(&tracks[0]), Some((200.0, 400.0)));
        tracks[0].length = None;
        assert_eq!(of(&tracks[0]), Some((200.0, 800.0)));
        assert_eq!(of(&tracks[1]), None);
    }

    #[test]
    fn narrow_bands_are_red_and_wide_ones_hatched() {
        let axis = |findings: &Findings| Sitting::of(std::slice::from_ref(findings), Start(None)).axis(findings);
        let drawn = |findings: &Findings| drawn(findings, &Frame { axis: axis(findings), left: 0.0, width: 900.0 }, "veil", 0.0, 10.0);
        let narrow = drawn(&samples::flipped("x", 40_000));
        assert!(narrow.contains("class=\"red\"") && !narrow.contains("class=\"veil\""), "{narrow}");
        let wide = drawn(&samples::exchanged("x", 40_000));
        assert!(wide.contains("class=\"veil\"") && !wide.contains("class=\"red\""), "{wide}");
    }
}
