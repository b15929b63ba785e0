//! "1 for a lent image of the wrong length, before the rest"

use text::{load_data, load_program, Outcome};

use crate::zeros;

const REFUSED: Outcome = Outcome { number: 1, line: 0 };

#[test]
fn an_image_has_512_cells_no_less_and_no_more() {
    let (data, program) = (zeros::text(&zeros::data()), zeros::text(&zeros::program()));
    for length in [0, 1, 256, 511, 513, 1024, 2048] {
        let (mut cells, mut words) = (vec![0x1234; length], vec![0x1234_5678; length]);
        assert_eq!(load_data(&data, &mut cells), REFUSED);
        assert_eq!(load_program(&program, &mut words), REFUSED);
        assert_eq!(cells, vec![0x1234; length]);
        assert_eq!(words, vec![0x1234_5678; length]);
    }
}

#[test]
fn it_comes_before_every_other_refusal() {
    for text in [b"".as_slice(), b"x", b":0000000000\n", b":0000000100\n", b":00000002FE\n", b":01FFFF000001\n"] {
        assert_eq!(load_data(text, &mut [0; 511]), REFUSED);
        assert_eq!(load_program(text, &mut [0; 513]), REFUSED);
    }
}
