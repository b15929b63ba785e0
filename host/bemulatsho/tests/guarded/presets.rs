//! Presets: the text and the RAM at a guard each, written and loaded; buffers and RAMs of other lengths, and damaged texts.

use crate::damage::damage;
use crate::pages::{Guard, Guarded};
use bemulatsho::{load_preset, write_preset, Writing, PRESET_TEXT, RAM};
use random::Random;

fn nothing_outside(guard: Guard) {
    let mut random = Random::new(0x7720);
    let (mut texts, mut rams) = (Guarded::new(), Guarded::new());
    let mut numbers = [0u32; 17];
    for _ in 0..20_000 {
        let cells = if random.one_in(8) { random.place(2 * RAM) } else { RAM };
        let ram = rams.slice::<u16>(guard, cells);
        ram.iter_mut().for_each(|cell| *cell = random.word());
        let length = match random.below(4) {
            0 => random.place(PRESET_TEXT),
            1 => PRESET_TEXT + random.place(300),
            _ => PRESET_TEXT,
        };
        let buffer = texts.slice::<u8>(guard, length);
        let fits = cells == RAM && length >= PRESET_TEXT;
        let Writing { number, length } = write_preset(ram, buffer);
        assert_eq!((number, length), if fits { (0, PRESET_TEXT) } else { (1, 0) });
        let mut text = buffer[..length].to_vec();
        damage(&mut random, &mut text);
        let lent = texts.slice::<u8>(guard, text.len());
        lent.copy_from_slice(&text);
        let loading = load_preset(lent, ram);
        numbers[usize::from(loading.number)] += 1;
        assert!(loading.line <= text.len());
    }
    assert!([0, 1, 12, 13, 15].iter().all(|number| numbers[*number] > 0), "{numbers:?}");
}

#[test]
fn nothing_is_touched_behind_a_preset_or_its_ram() {
    nothing_outside(Guard::After);
}

#[test]
fn nothing_is_touched_before_a_preset_or_its_ram() {
    nothing_outside(Guard::Before);
}
