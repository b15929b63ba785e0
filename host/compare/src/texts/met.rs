//! What the compared texts of one kind of image met: every length of a record in a text that was taken, each damage, each refusal in first,
//! middle and last lines. Something that was never met is a failure of the comparison.

use super::both::Decided;
use super::damage::Damage;
use super::made::Made;

/// Where a line stands in its text.
const PLACES: [&str; 3] = ["first", "middle", "last"];

pub struct Met {
    /// How often a record of each length was in a text that was taken.
    lengths: [u64; 256],
    /// How often a text with each damage was taken, and refused.
    taken: [u64; Damage::ALL.len()],
    refused: [u64; Damage::ALL.len()],
    /// How often each refusal was decided at each place.
    places: [[u64; PLACES.len()]; 17],
}

impl Met {
    pub fn new() -> Met {
        Met { lengths: [0; 256], taken: [0; Damage::ALL.len()], refused: [0; Damage::ALL.len()], places: [[0; PLACES.len()]; 17] }
    }

    pub fn whole(&mut self, made: &Made) {
        made.records.iter().for_each(|record| self.lengths[record.data.len()] += 1);
    }

    pub fn damaged(&mut self, damage: Damage, decided: Decided, text: &[u8]) {
        let counts = if decided.number == 0 { &mut self.taken } else { &mut self.refused };
        counts[damage as usize] += 1;
        self.refusal(decided, text);
    }

    pub fn refusal(&mut self, decided: Decided, text: &[u8]) {
        let lines = text.split_inclusive(|character| *character == b'\n').count();
        let place = match decided.line {
            0 | 1 => 0,
            line if line < lines => 1,
            _ => 2,
        };
        self.places[usize::from(decided.number)][place] += 1;
    }

    /// What was never met of this kind.
    pub fn missing(&self, kind: &str) -> Vec<String> {
        let mut missing = Vec::new();
        for (length, count) in self.lengths.iter().enumerate() {
            if *count == 0 {
                missing.push(format!("a record of {length} bytes in a text that was taken"));
            }
        }
        for damage in Damage::ALL {
            if self.refused[*damage as usize] == 0 {
                missing.push(format!("a refused text with the damage {damage:?}"));
            }
        }
        // Lines of data may stand in any order.
        if self.taken[Damage::LinesSwapped as usize] == 0 {
            missing.push("a text that was taken with two lines swapped".to_string());
        }
        // 16 is decided after the last record, and where no address is missing that is not the first line.
        for (refusal, places) in [(12, 0..3), (13, 0..3), (14, 0..3), (15, 0..3), (16, 1..3)] {
            for place in places {
                if self.places[refusal][place] == 0 {
                    missing.push(format!("refusal {refusal} in the {} line", PLACES[place]));
                }
            }
        }
        missing.into_iter().map(|what| format!("{kind}: {what}")).collect()
    }
}
