//! The page as one text.

use crate::report::axis::Sitting;
use crate::report::{escape, footer, heading, section, svg, table};
use crate::tracks::findings::Findings;
use crate::tracks::time::Start;

const STYLE: &str = include_str!("style.css");

/// Whatever the page may hold: no script runs on it and no request leaves it.
const POLICY: &str = "default-src 'none'; style-src 'unsafe-inline'; img-src data:";

/// The report of a sitting: one page of HTML that needs nothing beside it.
pub fn page(title: &str, tracks: &[Findings], start: Start) -> String {
    let sitting = Sitting::of(tracks, start);
    let mut page = format!(
        "<!DOCTYPE html>\n<html lang=\"en\">\n<head>\n<meta charset=\"utf-8\">\n\
         <meta http-equiv=\"Content-Security-Policy\" content=\"{POLICY}\">\n\
         <meta name=\"viewport\" content=\"width=device-width, initial-scale=1\">\n<meta name=\"referrer\" content=\"no-referrer\">\n\
         <title>{}</title>\n<style>\n{STYLE}</style>\n</head>\n<body>\n",
        escape::text(title)
    );
    page.push_str(svg::DEFINITIONS);
    page.push_str(&heading::heading(title, tracks, &sitting));
    page.push_str("<main>\n");
    page.push_str(&table::table(tracks, &sitting));
    page.push_str(&section::sections(tracks, &sitting));
    page.push_str("</main>\n");
    page.push_str(&footer::footer());
    page.push_str("</body>\n</html>\n");
    page
}

#[cfg(test)]
mod tests {
    use super::*;
    use crate::fault::Fault;
    use crate::report::tags;
    use crate::tracks::findings::Chip;
    use crate::tracks::samples;

    const NASTY: [&str; 6] = [
        "</title></style><script>alert(1)</script>",
        "\"><img src=\"https://example.org/x.png\" onerror='alert(1)'>",
        "http://example.org/?a=1&b=2",
        "\u{202e}kcart\0\u{7}\u{fffe}",
        "<!-- -->]]></svg></pre></table>",
        "",
    ];

    /// A track in which every text that may come from a file is this one.
    fn track_of(text: &str) -> Findings {
        let mut findings = samples::trial(text);
        findings.sources = vec![text.to_string(); 3];
        findings.notes = vec![text.to_string(); 4];
        findings.missing = Some(text.to_string());
        findings.failed = Some(Fault::failed(text));
        if let Some(stretch) = findings.stretch.as_mut() {
            stretch.lines.push(text.to_string());
        }
        findings
    }

    fn many() -> Vec<Findings> {
        let mut tracks = vec![samples::right("right"), samples::flipped("flipped", 40_000), samples::exchanged("exchanged", 40_000)];
        tracks.extend([samples::trial("trial"), samples::cut("cut", 20_000), samples::unreadable("unreadable"), samples::silent("silent")]);
        tracks
    }

    #[test]
    fn nothing_that_stands_in_a_file_leaves_the_page_or_runs_on_it() {
        let mut tracks: Vec<Findings> = NASTY.iter().map(|text| track_of(text)).collect();
        tracks.extend(NASTY.map(|text| {
            let mut findings = Findings::new(text);
            findings.unreadable = Some(Fault::bad(text));
            findings
        }));
        for title in NASTY {
            let page = page(title, &tracks, Start(None));
            tags::balance(&page).unwrap();
            let small = page.to_lowercase();
            for never in ["http:", "https:", "<script", "<img", "<link", "<iframe", "@import", "javascript:", "xmlns"] {
                assert!(!small.contains(never), "{never} in the page of {title:?}");
            }
            assert_eq!(small.matches("url(").count(), small.matches("url(#").count());
            assert!(tags::attributes(&page).iter().all(|name| !name.starts_with("on") && name != "src"), "{title:?}");
        }
    }

    #[test]
    fn every_kind_of_track_makes_a_page_whose_tags_balance() {
        let mut tracks = many();
        for track in many() {
            tags::balance(&page("one", &[track], Start(None))).unwrap();
        }
        for mut track in many() {
            track.rate = None;
            tracks.push(track);
        }
        for start in [Start(None), Start::parse("19:30").unwrap()] {
            let page = page("evening", &tracks, start);
            tags::balance(&page).unwrap();
            assert!(!page.contains("NaN") && !page.contains("inf dB"), "a number that is none");
        }
        tags::balance(&page("none", &[], Start(None))).unwrap();
    }

    #[test]
    fn none_to_sixteen_sources_are_shown() {
        for sources in 0..=16 {
            let mut findings = Findings::new("x");
            findings.rate = Some(100);
            let mut noise = samples::Noise::new(9);
            for at in 0..1000 {
                let inputs: Vec<i16> = (0..sources).map(|_| noise.sample()).collect();
                findings.sample(&inputs, Chip::Sends(0), u16::from(at > 500), None);
            }
            findings.end();
            let page = page("x", &[findings], Start(None));
            tags::balance(&page).unwrap();
            assert_eq!(page.matches("class=\"over-time\"").count(), sources, "{sources}");
        }
    }

    #[test]
    fn a_few_hundred_tracks_stay_small() {
        let one = samples::exchanged("x", 40_000);
        let tracks = vec![one; 300];
        let page = page("x", &tracks, Start(None));
        tags::balance(&page).unwrap();
        assert!(page.len() < 12_000_000, "{} bytes", page.len());
        assert!(page.contains("Look at: "));
    }

    #[test]
    fn the_page_says_what_it_is_about() {
        let page = page("Plenary & dinner", &many(), Start::parse("19:00").unwrap());
        assert!(page.contains("<title>Plenary &amp; dinner</title>"));
        assert!(page.contains("<h1>3 of 7 tracks differ, 1 is incomplete, 1 is unreadable.</h1>"), "{}", &page[..6000]);
        assert!(page.contains("from 19&#58;00&#58;00 to 19&#58;00&#58;10"));
    }
}
