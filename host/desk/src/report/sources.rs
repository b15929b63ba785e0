//! Which source is on a track: a table of what was asked for and what was found, and a strip over the whole time for each source.

use crate::report::axis::Axis;
use crate::report::escape;
use crate::report::strip::{frame, TICKS, WIDTH};
use crate::report::svg::{drawing, number, path, rectangle, words, Frame, Steps};
use crate::report::times;
use crate::sound::levels;
use crate::tracks::findings::{Findings, SharesColumn, WITHOUT_RATE};
use crate::tracks::fit::{Share, Shares};
use crate::tracks::heard::{self, Heard};

const HEIGHT: f64 = 44.0;
const TOP: f64 = 4.0;
const BOTTOM: f64 = 40.0;

/// The table, with strips where the track differs; nothing where nothing is known of the sources.
pub fn table(findings: &Findings, axis: Axis) -> String {
    let Some(whole) = findings.shares_of_all().filter(|shares| !shares.sources.is_empty()) else { return String::new() };
    let wrong = findings.shares_where_it_differs();
    let differs = wrong.is_some();
    let judged_by = wrong.as_ref().unwrap_or(&whole);
    let heard = heard::judged(judged_by);
    let scale = Scale::of(findings);
    let mut rows = String::new();
    for at in 0..judged_by.sources.len() {
        let strip = if differs { source_strip(findings, &frame(axis), at, scale) } else { String::new() };
        rows.push_str(&source(findings, &heard, at, judged_by, wrong.as_ref().map(|_| &whole), &strip));
    }
    rows.push_str(&left_over(judged_by, differs));
    format!("<table class=\"sources\">\n{}{rows}</table>\n", head(differs))
}

/// Two columns more where it differs: the same over all of the track.
fn head(differs: bool) -> String {
    let columns = |texts: &[&str]| texts.iter().map(|text| format!("<th scope=\"col\">{text}</th>")).collect::<String>();
    let first = columns(&["Source", "asked for", "found", "remark"]);
    let widths = "<col class=\"name\"><col class=\"gain\"><col class=\"gain\"><col>";
    if !differs {
        let caption = "<caption>Which source is on the track, over all of it</caption>";
        return format!("{caption}\n<colgroup>{widths}</colgroup>\n<thead><tr>{first}</tr></thead>\n");
    }
    format!(
        "<caption>Which source is on the track{KEY}</caption>\n<colgroup>{widths}<col class=\"gain\"><col class=\"gain\"></colgroup>\n\
         <thead><tr class=\"groups\"><td></td><th colspan=\"3\" scope=\"colgroup\">where it differs</th>\
         <th colspan=\"2\" scope=\"colgroup\">over all of the track</th></tr>\n<tr>{first}{}</tr></thead>\n",
        columns(&["asked for", "found"])
    )
}

/// How the strips are read.
const KEY: &str = "<span class=\"key\">\
    <svg class=\"swatch\" viewBox=\"0 0 26 10\" aria-hidden=\"true\"><path class=\"asked\" d=\"M0 5H26\"/></svg> asked for \
    <svg class=\"swatch\" viewBox=\"0 0 26 10\" aria-hidden=\"true\"><path class=\"found\" d=\"M0 5H26\"/></svg> found \
    <svg class=\"swatch\" viewBox=\"0 0 26 10\" aria-hidden=\"true\"><path class=\"found-wrong\" d=\"M0 5H26\"/></svg> \
    found, and not as asked for</span>";

/// The row of one source, and its strip in the row below.
fn source(findings: &Findings, heard: &[Heard], at: usize, shares: &Shares, whole: Option<&Shares>, strip: &str) -> String {
    let class = if matches!(heard[at], Heard::Right | Heard::Untold) { "right" } else { "wrong" };
    let name = escape::name(&findings.source_name(at));
    let remark = escape::text(&heard::remark(findings, heard, at));
    let mut row =
        format!("<tr class=\"{class}\"><th scope=\"row\">{name}</th>{}<td class=\"remark\">{remark}</td>", gains(shares.sources[at]));
    let mut columns = 4;
    if let Some(whole) = whole {
        row.push_str(&gains(whole.sources.get(at).copied().flatten()));
        columns += 2;
    }
    let strip = match strip.is_empty() {
        true => String::new(),
        false => format!("<tr class=\"over-time\"><td colspan=\"{columns}\">{strip}</td></tr>\n"),
    };
    format!("<tbody>{row}</tr>\n{strip}</tbody>\n")
}

/// What was asked for and what was found, in two cells.
fn gains(share: Option<Share>) -> String {
    let (asked, found) = match share {
        Some(Share { asked, .. }) if asked.abs() < heard::NONE => ("not asked for".to_string(), share.map_or(0.0, |share| share.found)),
        Some(Share { asked, found, .. }) => (gain(asked), found),
        None => return "<td>\u{2014}</td><td>\u{2014}</td>".to_string(),
    };
    format!("<td>{asked}</td><td>{}</td>", gain(found))
}

/// What is on the track and is none of the sources, as a row of its own.
fn left_over(shares: &Shares, two: bool) -> String {
    if !heard::left_over(shares) {
        return String::new();
    }
    let level = times::decibels(shares.rest / levels::FULL_SCALE);
    let rest = if two { "<td></td><td></td>" } else { "" };
    format!(
        "<tbody><tr class=\"wrong\"><th scope=\"row\">something else</th><td>not asked for</td><td>{level}</td>\
         <td class=\"remark\">none of the sources: a level against full scale, not a gain</td>{rest}</tr>\n</tbody>\n"
    )
}

/// The gains of a track's strips: the top is the largest of them, or 1; like a fader, the scale is wide where it is loud.
#[derive(Clone, Copy)]
struct Scale {
    top: f64,
}

impl Scale {
    fn of(findings: &Findings) -> Scale {
        let gains = findings.shares.columns.iter().flat_map(|column| &column.sources).filter_map(|gains| gains.mean());
        Scale { top: gains.map(|(asked, found)| asked.max(found)).fold(1.0, f64::max) }
    }

    fn y(self, gain: f64) -> f64 {
        let gain = if gain < heard::NONE { 0.0 } else { gain };
        BOTTOM - (BOTTOM - TOP) * (gain / self.top).sqrt()
    }
}

/// A source over the whole time: what was asked for thin and dashed, what was found thick, and red where it is not what was asked for.
fn source_strip(findings: &Findings, frame: &Frame, at: usize, scale: Scale) -> String {
    let second = u64::from(findings.rate.unwrap_or(WITHOUT_RATE)).max(1);
    let column_width = second.saturating_mul(findings.shares.width);
    let mut lines = Lines::default();
    for (column, number) in findings.shares.columns.iter().zip(0_u64..) {
        let Some((asked, found)) = mean(column, at) else { continue };
        let sample = number.saturating_mul(column_width);
        let (from, to) = (frame.x(sample), frame.x(sample.saturating_add(column_width).min(findings.samples)));
        lines.push(from, to, Heights { asked: scale.y(asked), found: scale.y(found), right: heard::near(found, asked) });
    }
    let content = format!("{}{}{}", ground(frame, scale), lines.drawn(), labels(frame, scale));
    let label = format!("{} over the whole time", escape::text(&findings.source_name(at)));
    drawing("source", WIDTH, HEIGHT, &label, &content)
}

/// A source that is silent for no longer than this, in units of the drawing, stays where it was.
const PAUSE: f64 = 12.0;

#[derive(Default)]
struct Lines {
    asked: Steps,
    right: Steps,
    wrong: Steps,
    /// Where the lines end.
    last: Option<(f64, Heights)>,
}

#[derive(Clone, Copy)]
struct Heights {
    asked: f64,
    found: f64,
    right: bool,
}

impl Lines {
    fn push(&mut self, from: f64, to: f64, heights: Heights) {
        match self.last {
            Some((end, before)) if end < from && from - end <= PAUSE => self.step(end, from, before),
            _ => {}
        }
        self.step(from, to, heights);
    }

    fn step(&mut self, from: f64, to: f64, heights: Heights) {
        self.asked.push(from, to, heights.asked);
        let found = if heights.right { &mut self.right } else { &mut self.wrong };
        found.push(from, to, heights.found);
        self.last = Some((to, heights));
    }

    fn drawn(&self) -> String {
        [("found", &self.right), ("found-wrong", &self.wrong), ("asked", &self.asked)]
            .map(|(class, steps)| path(class, &steps.line()))
            .concat()
    }
}

fn mean(column: &SharesColumn, at: usize) -> Option<(f64, f64)> {
    column.sources.get(at).and_then(|gains| gains.mean())
}

fn ground(frame: &Frame, scale: Scale) -> String {
    let lines = [1.0, 0.25].map(|gain| format!("M{} {}H{}", number(frame.left), number(scale.y(gain)), number(frame.right())));
    let ground = rectangle("ground", frame.left, frame.right(), TOP, BOTTOM - TOP);
    format!("{ground}{}{}", path("tick", &lines.concat()), frame.lines(TICKS, TOP, BOTTOM))
}

/// The levels at the left.
fn labels(frame: &Frame, scale: Scale) -> String {
    let label = |(gain, text): (f64, &str)| words("small", frame.left - 6.0, scale.y(gain) + 3.0, "end", text);
    [(1.0, "0 dB"), (0.25, "\u{2212}12 dB"), (0.0, "none")].map(label).concat()
}

/// A gain as the table writes it.
fn gain(gain: f64) -> String {
    let written = times::decibels(gain);
    match gain.abs() {
        gain if gain < heard::NONE => "not there".to_string(),
        gain if gain > 1.0 && written != "0.0 dB" => format!("+{written}"),
        _ => written,
    }
}

#[cfg(test)]
mod tests {
    use super::*;
    use crate::report::axis::Sitting;
    use crate::tracks::samples;
    use crate::tracks::time::Start;

    fn shown(findings: &Findings) -> String {
        table(findings, Sitting::of(std::slice::from_ref(findings), Start(None)).own_axis(findings))
    }

    #[test]
    fn what_was_asked_for_and_what_was_found_stand_side_by_side() {
        let table = shown(&samples::trial("x"));
        assert!(table.contains("<bdi>booth</bdi></th><td>\u{2212}6.0 dB</td><td>not there</td>"), "{table}");
        assert!(table.contains("<bdi>room</bdi></th><td>not asked for</td><td>+0.8 dB</td>"), "{table}");
        assert!(table.contains("class=\"found-wrong\"") && !table.contains("-inf"), "{table}");
    }

    #[test]
    fn a_track_that_agrees_has_the_table_alone() {
        let table = shown(&samples::right("x"));
        assert!(
            table.contains("<bdi>booth</bdi></th><td>\u{2212}6.0 dB</td><td>\u{2212}6.0 dB</td><td class=\"remark\">right</td>"),
            "{table}"
        );
        assert!(!table.contains("<svg"), "{table}");
        assert_eq!(shown(&Findings::new("x")), "");
    }

    #[test]
    fn silence_is_no_gain() {
        let table = shown(&samples::silent("x"));
        assert!(
            table.contains("<td>\u{2014}</td><td>\u{2014}</td><td class=\"remark\">silent, or not to be told from the others</td>"),
            "{table}"
        );
    }

    #[test]
    fn short_pauses_are_bridged_and_long_ones_are_not() {
        let heights = Heights { asked: 5.0, found: 5.0, right: true };
        let mut lines = Lines::default();
        [(0.0, 1.0), (1.0 + PAUSE, 20.0), (40.0, 50.0)].iter().for_each(|(from, to)| lines.push(*from, *to, heights));
        assert_eq!(lines.asked.line(), "M0 5H20M40 5H50");
    }

    #[test]
    fn a_gain_that_is_as_good_as_none_is_not_there() {
        assert_eq!([0.0, 0.003, 0.5, -0.5].map(gain), ["not there", "not there", "\u{2212}6.0 dB", "\u{2212}6.0 dB"]);
        assert_eq!([2.0, 1.0, 1.001].map(gain), ["+6.0 dB", "0.0 dB", "0.0 dB"]);
    }
}
