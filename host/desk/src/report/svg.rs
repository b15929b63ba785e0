//! What drawings are made of: short numbers, steps, marks and patterns.

use crate::report::axis::{Axis, Tick};
use crate::tracks::verdict::Verdict;

/// What all drawings of the page refer to: the hatching of what differs, the crosses of what is missing, and the marks of the verdicts.
pub const DEFINITIONS: &str = "\
<svg class=\"definitions\" width=\"0\" height=\"0\" aria-hidden=\"true\"><defs>\
<pattern id=\"hatched\" width=\"7\" height=\"7\" patternUnits=\"userSpaceOnUse\" patternTransform=\"rotate(45)\">\
<rect width=\"7\" height=\"7\" fill=\"#d32f2f\"/><rect width=\"2.2\" height=\"7\" fill=\"#fff\"/></pattern>\
<pattern id=\"veil\" width=\"9\" height=\"9\" patternUnits=\"userSpaceOnUse\" patternTransform=\"rotate(45)\">\
<rect width=\"9\" height=\"9\" fill=\"#d32f2f\" fill-opacity=\".16\"/><rect width=\"2.6\" height=\"9\" fill=\"#c62828\"/></pattern>\
<pattern id=\"crossed\" width=\"9\" height=\"9\" patternUnits=\"userSpaceOnUse\">\
<rect width=\"9\" height=\"9\" fill=\"#f3f3f3\"/><path d=\"M0 0L9 9M9 0L0 9\" stroke=\"#a8a8a8\" stroke-width=\".9\"/></pattern>\
<symbol id=\"mark-agrees\" viewBox=\"0 0 20 20\">\
<circle cx=\"10\" cy=\"10\" r=\"9\" fill=\"#fff\" stroke=\"#2e7d46\" stroke-width=\"1.6\"/>\
<path d=\"M5.4 10.4l3.2 3.3 6-7.2\" fill=\"none\" stroke=\"#2e7d46\" stroke-width=\"2.2\"/></symbol>\
<symbol id=\"mark-differs\" viewBox=\"0 0 20 20\"><circle cx=\"10\" cy=\"10\" r=\"10\" fill=\"#b71c1c\"/>\
<path d=\"M6 6l8 8M14 6l-8 8\" fill=\"none\" stroke=\"#fff\" stroke-width=\"2.6\"/></symbol>\
<symbol id=\"mark-incomplete\" viewBox=\"0 0 20 20\"><circle cx=\"10\" cy=\"10\" r=\"10\" fill=\"#8a5a00\"/>\
<path d=\"M4.2 10h2.6M8.7 10h2.6M13.2 10h2.6\" fill=\"none\" stroke=\"#fff\" stroke-width=\"2.6\"/></symbol>\
<symbol id=\"mark-unreadable\" viewBox=\"0 0 20 20\"><circle cx=\"10\" cy=\"10\" r=\"10\" fill=\"#3c4043\"/>\
<path d=\"M6.9 7.6a3.1 3.1 0 1 1 4.6 2.7q-1.5.9-1.5 2.5M10 14.6v2.2\" fill=\"none\" stroke=\"#fff\" stroke-width=\"2.1\"/></symbol>\
</defs></svg>\n";

/// The mark of a verdict, to stand before its word.
pub fn mark(verdict: Verdict) -> String {
    format!("<svg class=\"mark\" viewBox=\"0 0 20 20\" aria-hidden=\"true\"><use href=\"#mark-{verdict}\"/></svg>")
}

/// A drawing of this size in its own units, as wide as its place is. The label tells it to whoever cannot see it.
pub fn drawing(class: &str, width: f64, height: f64, label: &str, content: &str) -> String {
    let (width, height) = (number(width), number(height));
    format!("<svg class=\"{class}\" viewBox=\"0 0 {width} {height}\" role=\"img\" aria-label=\"{label}\">{content}</svg>")
}

/// A length, to a tenth of a unit.
pub fn number(value: f64) -> String {
    let tenths = (value * 10.0).round() as i64;
    match tenths % 10 {
        0 => (tenths / 10).to_string(),
        _ => format!("{:.1}", tenths as f64 / 10.0),
    }
}

pub fn rectangle(class: &str, from: f64, to: f64, top: f64, height: f64) -> String {
    let (left, width) = (number(from), number((to - from).max(0.0)));
    format!("<rect class=\"{class}\" x=\"{left}\" y=\"{}\" width=\"{width}\" height=\"{}\"/>", number(top), number(height))
}

pub fn path(class: &str, steps: &str) -> String {
    match steps.is_empty() {
        true => String::new(),
        false => format!("<path class=\"{class}\" d=\"{steps}\"/>"),
    }
}

/// Text as it is given; whoever takes it from a file escapes it.
pub fn words(class: &str, x: f64, y: f64, anchor: &str, content: &str) -> String {
    format!("<text class=\"{class}\" x=\"{}\" y=\"{}\" text-anchor=\"{anchor}\">{content}</text>", number(x), number(y))
}

/// Where an axis lies in a drawing.
#[derive(Clone, Copy)]
pub struct Frame {
    pub axis: Axis,
    pub left: f64,
    pub width: f64,
}

impl Frame {
    pub fn x(&self, sample: u64) -> f64 {
        self.place(self.axis.share(sample))
    }

    pub fn right(&self) -> f64 {
        self.left + self.width
    }

    fn place(&self, share: f64) -> f64 {
        self.left + self.width * share
    }

    /// Thin lines at the ticks, from top to bottom.
    pub fn lines(&self, most: u64, top: f64, bottom: f64) -> String {
        let height = number(bottom - top);
        let line = |tick: &Tick| format!("M{} {}v{height}", number(self.place(tick.share)), number(top));
        path("tick", &self.axis.ticks(most).iter().map(line).collect::<String>())
    }

    /// The labels of the ticks; those at the ends stay inside.
    pub fn labels(&self, most: u64, y: f64) -> String {
        let label = |tick: &Tick| words("label", self.place(tick.share), y, anchor(tick.share), &tick.label);
        self.axis.ticks(most).iter().map(label).collect()
    }
}

fn anchor(share: f64) -> &'static str {
    match share {
        _ if share < 0.02 => "start",
        _ if share > 0.98 => "end",
        _ => "middle",
    }
}

/// A line of steps from left to right; neighbours at one height are one.
#[derive(Default)]
pub struct Steps(Vec<Step>);

#[derive(Clone, Copy, Debug, PartialEq)]
struct Step {
    from: f64,
    to: f64,
    y: f64,
}

impl Steps {
    /// The next step, which begins where the last ends or to the right of that. Half a unit of height is the least that is drawn.
    pub fn push(&mut self, from: f64, to: f64, y: f64) {
        let y = (y * 2.0).round() / 2.0;
        match self.0.last_mut() {
            Some(last) if last.to == from && last.y == y => last.to = to,
            _ => self.0.push(Step { from, to, y }),
        }
    }

    pub fn line(&self) -> String {
        self.drawn(|from, y| format!("M{} {}", number(from), number(y)), |_| String::new())
    }

    /// All that is between the line and a level below it.
    pub fn area(&self, bottom: f64) -> String {
        let bottom = number(bottom);
        self.drawn(|from, y| format!("M{} {bottom}V{}", number(from), number(y)), |_| format!("V{bottom}Z"))
    }

    fn drawn(&self, begin: impl Fn(f64, f64) -> String, end: impl Fn(f64) -> String) -> String {
        let mut path = String::new();
        for (at, step) in self.0.iter().enumerate() {
            match at.checked_sub(1).map(|before| self.0[before].to) {
                Some(before) if before == step.from => path.push_str(&format!("V{}", number(step.y))),
                _ => path.push_str(&begin(step.from, step.y)),
            }
            path.push_str(&format!("H{}", number(step.to)));
            if self.0.get(at + 1).map(|next| next.from) != Some(step.to) {
                path.push_str(&end(step.to));
            }
        }
        path
    }
}

#[cfg(test)]
mod tests {
    use super::*;

    #[test]
    fn numbers_are_short() {
        assert_eq!([0.0, 1.0, 1.04, 1.06, -2.5, 960.0].map(number), ["0", "1", "1", "1.1", "-2.5", "960"]);
    }

    #[test]
    fn steps_of_one_height_are_one() {
        let mut steps = Steps::default();
        [(0.0, 1.0, 5.0), (1.0, 2.0, 5.1), (2.0, 3.0, 4.0), (6.0, 7.0, 4.0)].iter().for_each(|(from, to, y)| steps.push(*from, *to, *y));
        assert_eq!(steps.line(), "M0 5H2V4H3M6 4H7");
        assert_eq!(steps.area(9.0), "M0 9V5H2V4H3V9ZM6 9V4H7V9Z");
        assert_eq!(Steps::default().area(9.0), "");
    }
}
