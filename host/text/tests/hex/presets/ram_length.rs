//! "a RAM that isn't 128 long: refusal 1 and no byte written"

use text::{load_preset, write_preset, Outcome, Writing};

use super::zeros;

const LENGTHS: [usize; 9] = [0, 1, 64, 127, 129, 136, 256, 512, 1024];

#[test]
fn it_is_not_loaded() {
    let mut texts = vec![zeros::text(), zeros::without(16)];
    texts.extend([b"".as_slice(), b"x", b":0000000001\n", b":00000002FE\n", b":00000001FF\n"].map(<[u8]>::to_vec));
    for (length, text) in LENGTHS.iter().flat_map(|length| texts.iter().map(|text| (*length, text))) {
        let mut ram = vec![0x1234; length];
        assert_eq!(load_preset(text, &mut ram), Outcome { number: 1, line: 0 });
        assert_eq!(ram, vec![0x1234; length]);
    }
}

/// A text as long as this RAM's own would be is lent too.
#[test]
fn it_is_not_written() {
    for (length, characters) in LENGTHS.iter().flat_map(|length| [0, 715, 716, 10_000].map(|characters| (*length, characters))) {
        let mut text = vec![b'?'; characters];
        assert_eq!(write_preset(&vec![0x1234; length], &mut text), Writing { number: 1, length: 0 });
        assert_eq!(text, vec![b'?'; characters]);
    }
}
