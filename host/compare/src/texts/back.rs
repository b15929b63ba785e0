//! A preset that was read, written back.

use super::both::Decided;
use bemulatsho::{Writing, PRESET_TEXT};

/// What was taken is written back in the writer's form, and as it was just if it had that form; what has the form is taken.
pub fn check(text: &[u8], decided: Decided, cells: &[u32]) -> Result<(), String> {
    let had_form = text::in_writers_form(text);
    if decided.number != 0 {
        return if had_form { Err(format!("in the writer's form, and refused with {}", decided.number)) } else { Ok(()) };
    }
    let mut written = [0; PRESET_TEXT];
    let ram: Vec<u16> = cells.iter().map(|cell| *cell as u16).collect();
    let writing = bemulatsho::write_preset(&ram, &mut written);
    if writing != (Writing { number: 0, length: PRESET_TEXT }) || !text::in_writers_form(&written) {
        return Err(format!("written back without the writer's form: {writing:?}\n{}", String::from_utf8_lossy(&written)));
    }
    match (had_form, written == *text) {
        (true, false) => Err(format!("in the writer's form, and written back otherwise:\n{}", String::from_utf8_lossy(&written))),
        (false, true) => Err("without the writer's form, and written back as it was".to_string()),
        _ => Ok(()),
    }
}
