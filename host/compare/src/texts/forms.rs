//! Presets as the writer writes them, with one thing different, and damaged: which are written back as they were, which in the writer's form,
//! and which are refused.

use super::both::{Both, Difference};
use super::damage::Damage;
use super::kind::Kind;
use super::made::Made;
use super::variation::Variation;
use random::Random;
use std::fmt;

/// Damaged texts of one preset.
const DAMAGED: u64 = 9;

/// Texts of one preset: as it is written, each variation, and damaged.
const TEXTS: u64 = 1 + Variation::ALL.len() as u64 + DAMAGED;

#[derive(Default)]
pub struct Forms {
    presets: u64,
    /// Damaged texts that kept the writer's form, that lost it and were taken, and that were refused.
    kept: u64,
    lost: u64,
    refused: u64,
}

impl Forms {
    pub fn texts(&self) -> u64 {
        self.presets * TEXTS
    }

    /// What was never met.
    pub fn missing(&self) -> Vec<String> {
        let counts =
            [(self.kept, "that kept the writer's form"), (self.lost, "that was taken without it"), (self.refused, "that was refused")];
        counts.iter().filter(|(count, _)| *count == 0).map(|(_, what)| format!("a damaged preset {what}")).collect()
    }
}

impl fmt::Display for Forms {
    fn fmt(&self, formatter: &mut fmt::Formatter) -> fmt::Result {
        let as_they_were = self.presets + self.kept;
        let in_writers_form = self.presets * Variation::ALL.len() as u64 + self.lost;
        let refused = self.refused;
        write!(formatter, "{as_they_were} presets written back as they were, {in_writers_form} in the writer's form, {refused} refused")
    }
}

/// The texts of one preset.
pub fn of_one_preset(random: &mut Random, forms: &mut Forms) -> Result<(), Difference> {
    let made = Made::as_written(random, Kind::Preset.size());
    let mut both = Both::new(random, Kind::Preset);
    let whole = made.text();
    both.give_all(&whole, &made.bytes)?;
    form(&both, &whole, true)?;
    for variation in Variation::ALL {
        let text = variation.done(random, &made);
        both.give_all(&text, &made.bytes)?;
        form(&both, &text, false)?;
    }
    for _ in 0..DAMAGED {
        let text = random.pick(Damage::ALL).done(random, &made);
        match (both.give(&text)?.number, text::in_writers_form(&text)) {
            (0, true) => forms.kept += 1,
            (0, false) => forms.lost += 1,
            _ => forms.refused += 1,
        }
    }
    forms.presets += 1;
    Ok(())
}

/// A text was made with the writer's form, or without it.
fn form(both: &Both, text: &[u8], made: bool) -> Result<(), Difference> {
    match text::in_writers_form(text) == made {
        true => Ok(()),
        false => Err(both.difference(text, format!("made with the writer's form: {made}, and it is not so"))),
    }
}
