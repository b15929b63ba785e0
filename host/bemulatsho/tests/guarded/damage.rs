//! What happens to a text.

use random::Random;

/// Changes some characters, and cuts the text now and then.
pub fn damage(random: &mut Random, text: &mut Vec<u8>) {
    if random.one_in(3) {
        text.truncate(random.place(text.len() + 1));
    }
    for _ in 0..random.below(3) {
        let place = random.place(text.len());
        if let Some(character) = text.get_mut(place) {
            *character = if random.flag() { random.next() as u8 } else { random.pick(b"09afAF:\r\n") };
        }
    }
}
