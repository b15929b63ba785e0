//! A text cut at every place: no part of it is taken, but the whole.

use super::both::{Both, Difference};
use super::kind::Kind;
use super::made::Made;
use super::met::Met;
use random::Random;

pub fn compare(random: &mut Random, met: &mut [Met; Kind::ALL.len()]) -> Result<u64, Difference> {
    let mut done = 0;
    for kind in Kind::ALL {
        let made = Made::new(random, kind.size(), 32);
        let mut both = Both::new(random, *kind);
        let whole = made.text();
        for length in 0..whole.len() {
            met[*kind as usize].refusal(both.refuse(&whole[..length])?, &whole[..length]);
            done += 1;
        }
        both.give_all(&whole, &made.bytes)?;
    }
    Ok(done)
}
