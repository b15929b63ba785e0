//! One RAM there and back: both writers, both readers, and the writer once more. Whatever is lent is made once and stays.

use super::met::{Lent, Met};
use bemulatsho::{Loading, Writing, PRESET_TEXT, RAM};
use random::Random;

/// Characters of a buffer, of which a part is lent, and cells to lend in place of a RAM.
const ROOM: usize = 1024;
const CELLS: usize = 4 * RAM;

/// What a buffer holds before: no character of a text.
const FILLERS: [u8; 5] = [0, 0xff, b'~', b'z', b' '];

/// The answer to a text in the writer's form.
const TAKEN: Loading = Loading { number: 0, line: 17 };
const WRITTEN: Writing = Writing { number: 0, length: PRESET_TEXT };
const REFUSED: Writing = Writing { number: 1, length: 0 };

pub struct Trip {
    proved: [u8; ROOM],
    second: [u8; ROOM],
    others: [u16; CELLS],
}

impl Trip {
    pub fn new() -> Trip {
        Trip { proved: [0; ROOM], second: [0; ROOM], others: [0x5a5a; CELLS] }
    }

    /// There and back.
    pub fn go(&mut self, random: &mut Random, ram: &[u16; RAM], met: &mut Met) -> Result<(), String> {
        let filler = random.pick(&FILLERS);
        let longer = PRESET_TEXT + random.place(ROOM - PRESET_TEXT);
        let length = random.pick(&[PRESET_TEXT, PRESET_TEXT + 1, 1000, ROOM, longer]);
        met.lent(if length == PRESET_TEXT { Lent::BufferOfTheText } else { Lent::BufferLonger });
        let given = *ram;
        self.write(&given, length, filler, WRITTEN)?;
        holds(given == *ram, || "the writer changed the RAM".to_string())?;
        let text = &self.proved[..PRESET_TEXT];
        holds(text::in_writers_form(text), || "what was written has not the writer's form".to_string())?;
        // Every bit of every cell is another before.
        let (mut proved, mut second) = (ram.map(|cell| !cell), ram.map(|cell| !cell));
        let loading = bemulatsho::load_preset(text, &mut proved);
        let outcome = text::load_preset(text, &mut second);
        let outcome = Loading { number: outcome.number, line: outcome.line };
        holds((loading, outcome) == (TAKEN, TAKEN), || format!("read back with {loading:?}, second reader {outcome:?}"))?;
        holds(proved == *ram, || format!("other cells are read back: {proved:04X?}"))?;
        holds(second == *ram, || format!("the second reader reads other cells: {second:04X?}"))?;
        let mut again = [filler; PRESET_TEXT];
        let writing = bemulatsho::write_preset(&proved, &mut again);
        holds(writing == WRITTEN && again == *text, || format!("what was read is written otherwise: {writing:?}\n{}", told(&again)))
    }

    /// A buffer that is too short for the text.
    pub fn short_buffer(&mut self, random: &mut Random, ram: &[u16; RAM], met: &mut Met) -> Result<(), String> {
        met.lent(Lent::BufferShort);
        let shorter = random.place(PRESET_TEXT);
        let length = random.pick(&[0, 1, 44, PRESET_TEXT - 12, PRESET_TEXT - 1, shorter]);
        self.write(ram, length, random.pick(&FILLERS), REFUSED)
    }

    /// A RAM of another length, whatever the buffer.
    pub fn other_ram(&mut self, random: &mut Random, met: &mut Met) -> Result<(), String> {
        met.lent(Lent::OtherRam);
        let cells = random.pick(&[0, 1, RAM / 2, RAM - 1, RAM + 1, 2 * RAM, CELLS]);
        let length = random.pick(&[0, PRESET_TEXT - 1, PRESET_TEXT, ROOM]);
        let others = self.others;
        self.write(&others[..cells], length, random.pick(&FILLERS), REFUSED)
    }

    /// Both writers, with so many characters lent: the same answer, the same buffer, and behind the text all of it as it was.
    fn write(&mut self, ram: &[u16], length: usize, filler: u8, expected: Writing) -> Result<(), String> {
        self.proved.fill(filler);
        self.second.fill(filler);
        let proved = bemulatsho::write_preset(ram, &mut self.proved[..length]);
        let second = text::write_preset(ram, &mut self.second[..length]);
        let second = Writing { number: second.number, length: second.length };
        let lent = || format!("{} cells, a buffer of {length}", ram.len());
        holds((proved, second) == (expected, expected), || format!("{}: {proved:?}, second writer {second:?}", lent()))?;
        holds(self.proved[expected.length..].iter().all(|character| *character == filler), || {
            format!("{}: written behind the text", lent())
        })?;
        holds(self.proved == self.second, || format!("{}, second writer:\n{}{}", lent(), told(&self.proved), told(&self.second)))
    }
}

fn holds(it: bool, otherwise: impl FnOnce() -> String) -> Result<(), String> {
    if it {
        Ok(())
    } else {
        Err(otherwise())
    }
}

fn told(text: &[u8]) -> String {
    String::from_utf8_lossy(&text[..PRESET_TEXT]).into_owned()
}
