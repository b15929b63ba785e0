//! The table of all tracks: verdict, one sentence, and a bar over the whole time, all bars on one scale.

use crate::report::axis::Sitting;
use crate::report::sentence::sentence;
use crate::report::svg::{drawing, mark, path, rectangle, words, Frame};
use crate::report::{bands, escape, svg};
use crate::tracks::findings::Findings;
use crate::tracks::verdict::Verdict;

const WIDTH: f64 = 460.0;
const TICKS: u64 = 4;

/// The bar, below the room for the marker of the first difference.
const TOP: f64 = 9.0;
const HEIGHT: f64 = 12.0;

/// More notes than this stand only in the track's own part.
const NOTES: usize = 2;

pub fn table(tracks: &[Findings], sitting: &Sitting) -> String {
    let rows: String = (1..).zip(tracks).map(|(number, findings)| row(number, findings, sitting)).collect();
    format!(
        "<table class=\"overview\">\n<thead><tr><th scope=\"col\">Track</th><th scope=\"col\">Verdict</th>\
         <th scope=\"col\">What happened</th><th scope=\"col\">{}</th></tr></thead>\n<tbody>\n{rows}</tbody>\n</table>\n{}",
        axis(sitting),
        legend()
    )
}

fn row(number: usize, findings: &Findings, sitting: &Sitting) -> String {
    let verdict = Verdict::of(findings);
    let said = escape::text(&sentence(findings, sitting.start));
    format!(
        "<tr class=\"{verdict}\"><th scope=\"row\"><a href=\"#track-{number}\">{}</a></th><td class=\"verdict\">{}{verdict}</td>\
         <td><p>{said}</p>{}</td><td>{}</td></tr>\n",
        escape::name(&findings.name),
        mark(verdict),
        notes(findings, number),
        bar(findings, sitting)
    )
}

fn notes(findings: &Findings, number: usize) -> String {
    let note = |note: &String| format!("<p class=\"note\">Note: {}</p>", escape::text(note));
    let mut notes: String = findings.notes.iter().take(NOTES).map(note).collect();
    if findings.notes.len() > NOTES {
        notes.push_str(&format!("<p class=\"note\"><a href=\"#track-{number}\">and {} more</a></p>", findings.notes.len() - NOTES));
    }
    notes
}

/// The times above all bars.
fn axis(sitting: &Sitting) -> String {
    let frame = Frame { axis: sitting.shared_axis(), left: 0.0, width: WIDTH };
    let unit = if sitting.start.0.is_some() { "time of day" } else { "time from the start" };
    let content = format!("{}{}", frame.labels(TICKS, 11.0), frame.lines(TICKS, 14.0, 18.0));
    drawing("axis", WIDTH, 18.0, unit, &content)
}

/// What agrees, what differs, and what is missing left blank; a small triangle points at the first difference.
fn bar(findings: &Findings, sitting: &Sitting) -> String {
    let frame = Frame { axis: sitting.axis(findings), left: 0.0, width: WIDTH };
    let missing = bands::missing(findings, &frame);
    let mut content = missing.map_or_else(String::new, |(from, to)| rectangle("blank", from, to, TOP, HEIGHT));
    content.push_str(&match findings.samples {
        0 => words("over", WIDTH / 2.0, TOP + HEIGHT - 2.0, "middle", "nothing was compared"),
        samples => rectangle("equal", 0.0, frame.x(samples), TOP, HEIGHT),
    });
    content.push_str(&frame.lines(TICKS, TOP, TOP + HEIGHT));
    content.push_str(&bands::drawn(findings, &frame, "hatched", TOP, HEIGHT));
    if let Some(first) = &findings.first {
        content.push_str(&path("triangle", &format!("M{} 0h10l-5 8z", svg::number(frame.x(first.sample) - 5.0))));
    }
    let label = match findings.first {
        Some(_) => "what agrees and what differs over the whole time",
        None => "the whole time",
    };
    let bar = drawing("bar", WIDTH, TOP + HEIGHT + 1.0, label, &content);
    match sitting.has_two_scales() && findings.rate.is_none() && findings.samples > 0 {
        true => format!("{bar}<p class=\"note\">No rate is known of this track: its bar is drawn over its samples, not over time.</p>"),
        false => bar,
    }
}

fn legend() -> String {
    let swatch = |class: &str| {
        format!("<svg class=\"swatch\" viewBox=\"0 0 26 12\" aria-hidden=\"true\">{}</svg>", rectangle(class, 0.5, 25.5, 0.5, 11.0))
    };
    let triangle =
        "<svg class=\"swatch narrow\" viewBox=\"0 0 12 12\" aria-hidden=\"true\"><path class=\"triangle\" d=\"M1 2h10l-5 8z\"/></svg>";
    let entries = [
        (swatch("equal"), "as the chip sends it"),
        (swatch("hatched"), "differs"),
        (triangle.to_string(), "the first difference"),
        (swatch("blank"), "missing"),
    ];
    let entries: String = entries.iter().map(|(drawn, text)| format!("<span>{drawn}{text}</span>")).collect();
    format!("<p class=\"legend\">{entries}</p>\n")
}

#[cfg(test)]
mod tests {
    use super::*;
    use crate::tracks::samples;
    use crate::tracks::time::Start;

    #[test]
    fn every_track_has_a_row_with_its_verdict_and_its_bar() {
        let tracks = [samples::right("one"), samples::flipped("two", 40_000), samples::cut("three", 20_000), samples::unreadable("four")];
        let table = table(&tracks, &Sitting::of(&tracks, Start(None)));
        assert_eq!(table.matches("class=\"bar\"").count(), 4);
        for verdict in Verdict::ALL {
            assert_eq!(table.matches(&format!("<tr class=\"{verdict}\">")).count(), 1, "{verdict}");
        }
        assert!(table.contains("class=\"red\"") && table.contains("class=\"blank\"") && table.contains("nothing was compared"), "{table}");
    }

    #[test]
    fn the_bars_of_all_tracks_have_one_scale() {
        let tracks = [samples::right("whole"), samples::cut("half", 40_000)];
        let sitting = Sitting::of(&tracks, Start(None));
        assert!(bar(&tracks[0], &sitting).contains("<rect class=\"equal\" x=\"0\" y=\"9\" width=\"460\""));
        assert!(bar(&tracks[1], &sitting).contains("<rect class=\"equal\" x=\"0\" y=\"9\" width=\"230\""));
    }

    #[test]
    fn few_notes_stand_in_the_table() {
        let mut findings = samples::right("x");
        findings.notes = ["a", "b", "c", "d"].map(String::from).to_vec();
        let notes = notes(&findings, 7);
        assert!(notes.contains("Note: b") && !notes.contains("Note: c") && notes.contains("and 2 more"), "{notes}");
    }
}
