//! `desk check-track` as a person uses it: a line a track, a last line that counts them, and the status that follows.

mod altered;
mod compact;
mod cuts;
mod judged;
mod lists;
mod options;
mod records;
mod sounds;
mod sources;
mod tracks;
mod trial;

use crate::folder::{Folder, Ran};

const VERDICTS: [&str; 4] = ["agrees", "differs", "incomplete", "unreadable"];

/// What is printed of one track.
#[derive(Debug, PartialEq, Eq)]
struct Checked {
    name: String,
    verdict: String,
    sentence: String,
}

impl Checked {
    fn of(line: &str) -> Checked {
        let (name, rest) = line.split_once(": ").expect("a name");
        let (verdict, sentence) = rest.split_once(": ").expect("a verdict");
        assert!(VERDICTS.contains(&verdict), "{line}");
        Checked { name: name.to_string(), verdict: verdict.to_string(), sentence: sentence.to_string() }
    }

    #[track_caller]
    fn is(&self, verdict: &str, sentence: &str) {
        assert_eq!((self.verdict.as_str(), self.sentence.as_str()), (verdict, sentence));
    }

    /// The verdict, and how the sentence begins.
    #[track_caller]
    fn begins(&self, verdict: &str, sentence: &str) {
        assert!(self.verdict == verdict && self.sentence.starts_with(sentence), "{self:?}: expected {verdict}: {sentence}");
    }

    /// The verdict, and a part of the sentence.
    #[track_caller]
    fn says(&self, verdict: &str, part: &str) {
        assert!(self.verdict == verdict && self.sentence.contains(part), "{self:?}: expected {verdict} and {part}");
    }
}

impl Folder {
    /// Checks tracks, by the arguments of a line.
    #[track_caller]
    fn check_all(&self, arguments: &str) -> Vec<Checked> {
        judged(&self.desk(&format!("check-track {arguments}")))
    }

    /// Checks one track.
    #[track_caller]
    fn check(&self, arguments: &str) -> Checked {
        one(&self.desk(&format!("check-track {arguments}")))
    }

    /// Checks records in one call, each judged by what it is and not by the length of another.
    #[track_caller]
    fn check_each<Record: AsRef<[u8]>>(&self, records: impl IntoIterator<Item = Record>) -> Vec<Checked> {
        let mut names = Vec::new();
        for record in records {
            names.push(format!("{}.record", names.len()));
            self.write(&names[names.len() - 1], record);
        }
        let checked = self.check_all(&names.join(" "));
        assert_eq!(checked.len(), names.len());
        assert!(checked.iter().all(|track| !track.sentence.contains("of the same call")), "{checked:?}");
        checked
    }

    #[track_caller]
    fn check_text(&self, record: &str) -> Checked {
        self.write("x.record", record);
        self.check("x.record")
    }
}

/// The one track that was checked.
#[track_caller]
fn one(ran: &Ran) -> Checked {
    let mut checked = judged(ran);
    assert_eq!(checked.len(), 1, "{ran:?}");
    checked.remove(0)
}

/// The tracks that were checked. The last line counts them, and the status and what is told follow from the verdicts.
#[track_caller]
fn judged(ran: &Ran) -> Vec<Checked> {
    let mut lines: Vec<&str> = ran.printed.lines().collect();
    let last = lines.pop().unwrap_or_else(|| panic!("nothing is printed: {ran:?}"));
    let checked: Vec<Checked> = lines.into_iter().map(Checked::of).collect();
    let counts = VERDICTS.map(|verdict| checked.iter().filter(|track| track.verdict == verdict).count());
    assert_eq!(last, tally(counts));
    let [agree, _, _, unreadable] = counts;
    let (others, all) = (checked.len() - agree, checked.len());
    let told = match (all, others) {
        (_, 0) => String::new(),
        (1, _) => "desk: the track does not agree with the chip\n".to_string(),
        (_, 1) => format!("desk: 1 of {all} tracks does not agree with the chip\n"),
        _ => format!("desk: {others} of {all} tracks do not agree with the chip\n"),
    };
    let status = if unreadable > 0 { 2 } else { i32::from(others > 0) };
    assert_eq!((ran.status, &ran.told), (status, &told), "{ran:?}");
    checked
}

fn tally([agree, differ, incomplete, unreadable]: [usize; 4]) -> String {
    let tracks = match agree + differ + incomplete + unreadable {
        1 => "1 track".to_string(),
        tracks => format!("{tracks} tracks"),
    };
    format!("{tracks}: agrees {agree}, differs {differ}, incomplete {incomplete}, unreadable {unreadable}")
}
