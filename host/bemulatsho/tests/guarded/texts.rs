//! Texts: the text, the image and the line at a guard each; damaged texts, texts that are cut, and images of wrong lengths.

use crate::damage::damage;
use crate::pages::{Guard, Guarded};
use bemulatsho::{load_data, load_program, read_record, Loading};
use random::Random;

/// A text of so many zeros as bytes of an image, in records of this length.
fn zeros(bytes: usize, length: usize) -> Vec<u8> {
    let mut text = Vec::new();
    for at in (0..bytes).step_by(length) {
        let length = length.min(bytes - at);
        let check = (length + at / 256 + at % 256).wrapping_neg() & 255;
        text.extend_from_slice(format!(":{length:02X}{at:04X}00{}{check:02X}\n", "00".repeat(length)).as_bytes());
    }
    text.extend_from_slice(b":00000001FF\n");
    text
}

fn nothing_outside(guard: Guard) {
    let mut random = Random::new(0x7720);
    let (mut texts, mut images) = (Guarded::new(), Guarded::new());
    let mut numbers = [0u32; 17];
    for turn in 0..20_000 {
        let (bytes, records) = (if turn % 2 == 0 { 2048 } else { 1024 }, 16 + random.place(240));
        let mut text = zeros(bytes, records);
        damage(&mut random, &mut text);
        let lent = texts.slice::<u8>(guard, text.len());
        lent.copy_from_slice(&text);
        let length = if random.one_in(8) { random.place(1024) } else { 512 };
        let Loading { number, line } = if turn % 2 == 0 {
            load_program(lent, images.slice::<u32>(guard, length))
        } else {
            load_data(lent, images.slice::<u16>(guard, length))
        };
        numbers[usize::from(number)] += 1;
        assert!(line <= text.len());
        let from = random.place(text.len() + 1);
        let line = &text[from..];
        let lent = texts.slice::<u8>(guard, line.len());
        lent.copy_from_slice(line);
        assert!(read_record(lent).data.len() <= line.len());
    }
    assert!([0, 1, 12, 13, 15].iter().all(|number| numbers[*number] > 0), "{numbers:?}");
}

#[test]
fn nothing_is_touched_behind_a_text_or_an_image() {
    nothing_outside(Guard::After);
}

#[test]
fn nothing_is_touched_before_a_text_or_an_image() {
    nothing_outside(Guard::Before);
}
