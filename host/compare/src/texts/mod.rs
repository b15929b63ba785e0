//! Random texts of Intel HEX, whole and damaged: the proved reader against the second one, text by text and line by line, and presets
//! written back.

mod back;
mod both;
mod cuts;
mod damage;
mod forms;
mod kind;
mod made;
mod met;
mod record;
mod variation;

use both::{Both, Difference};
use damage::Damage;
use forms::Forms;
use kind::Kind;
use made::Made;
use met::Met;
use random::Random;

/// Texts of one image; then another is made.
const TEXTS: u64 = 8;

/// After so many images a preset follows as it is written, and nearly so.
const IMAGES: u64 = 32;

/// Compares so many texts and tells how many they were, and how presets came back; a difference is told with the seed of its image and the
/// smallest text that shows it.
pub fn compare(seed: u64, texts: u64, progress: impl Fn(u64)) -> Result<(u64, Forms), String> {
    let mut met = [Met::new(), Met::new(), Met::new()];
    let mut forms = Forms::default();
    let mut done = 0;
    let mut image = 0;
    while done < texts {
        let own = seed.wrapping_add(image);
        let told = |difference: Difference| format!("texts of seed {own}: {}", difference.smallest());
        let random = &mut Random::new(own);
        done += of_one_image(random, image, &mut met).map_err(told)?;
        if image % IMAGES == 0 {
            forms::of_one_preset(random, &mut forms).map_err(told)?;
        }
        image += 1;
        progress(done);
    }
    done += cuts::compare(&mut Random::new(seed), &mut met).map_err(|difference| difference.smallest())?;
    done += forms.texts();
    let mut missing = forms.missing();
    Kind::ALL.iter().for_each(|kind| missing.extend(met[*kind as usize].missing(kind.name())));
    match missing.is_empty() {
        true => Ok((done, forms)),
        false => Err(format!("{done} texts never met: {}", missing.join(", "))),
    }
}

/// The text of one image as it is, once more in another order, and damaged. The kinds have their turns.
fn of_one_image(random: &mut Random, number: u64, met: &mut [Met; Kind::ALL.len()]) -> Result<u64, Difference> {
    let kind = Kind::ALL[(number % Kind::ALL.len() as u64) as usize];
    let met = &mut met[kind as usize];
    let mut made = Made::new(random, kind.size(), number);
    let mut both = Both::new(random, kind);
    let whole = made.text();
    both.give_all(&whole, &made.bytes)?;
    met.whole(&made);
    random_lines(random, &whole, &both)?;
    made.reorder(random);
    both.give_all(&made.text(), &made.bytes)?;
    for _ in 2..TEXTS {
        let damage = random.pick(Damage::ALL);
        let text = damage.done(random, &made);
        let decided = both.give(&text)?;
        met.damaged(damage, decided, &text);
        random_lines(random, &text, &both)?;
    }
    both.wrong_length(random, &whole)?;
    Ok(TEXTS)
}

/// A few lines of a text, each read alone; one of them may be several lines, or a part of one.
fn random_lines(random: &mut Random, text: &[u8], both: &Both) -> Result<(), Difference> {
    for _ in 0..3 {
        let start = random.place(text.len() + 1);
        let rest = &text[start..];
        let line = rest.split_inclusive(|character| *character == b'\n').nth(1).unwrap_or(rest);
        both.record(line)?;
    }
    let from = random.place(text.len() + 1);
    both.record(&text[from..(from + random.place(64)).min(text.len())])
}
