//! What the presets met: each corner, each single bit, each way to lend a buffer or a RAM. Something that was never met is a failure of the
//! comparison.

use super::rams::{Shape, BITS};
use bemulatsho::RAM;
use std::fmt;

listed!(
    /// What was lent to a writer.
    Lent: BufferOfTheText, BufferLonger, BufferShort, OtherRam
);

pub struct Met {
    shapes: [u64; Shape::ALL.len()],
    /// Which bits were set alone.
    bits: [bool; BITS],
    lent: [u64; Lent::ALL.len()],
}

impl Met {
    pub fn new() -> Met {
        Met { shapes: [0; Shape::ALL.len()], bits: [false; BITS], lent: [0; Lent::ALL.len()] }
    }

    pub fn ram(&mut self, shape: Shape, ram: &[u16; RAM]) {
        self.shapes[shape as usize] += 1;
        if let (Shape::OneBit, Some(place)) = (shape, ram.iter().position(|cell| *cell != 0)) {
            self.bits[16 * place + ram[place].trailing_zeros() as usize] = true;
        }
    }

    pub fn lent(&mut self, lent: Lent) {
        self.lent[lent as usize] += 1;
    }

    /// What was never met.
    pub fn missing(&self) -> Vec<String> {
        let mut missing = Vec::new();
        for shape in Shape::ALL.iter().filter(|shape| self.shapes[**shape as usize] == 0) {
            missing.push(format!("a RAM of {shape:?}"));
        }
        if let Some(bit) = self.bits.iter().position(|met| !met) {
            missing.push(format!("bit {} of cell {} alone", bit % 16, bit / 16));
        }
        for lent in Lent::ALL.iter().filter(|lent| self.lent[**lent as usize] == 0) {
            missing.push(format!("{lent:?}"));
        }
        missing
    }
}

impl fmt::Display for Met {
    fn fmt(&self, formatter: &mut fmt::Formatter) -> fmt::Result {
        let any = self.shapes[Shape::Any as usize];
        let corners = self.shapes.iter().sum::<u64>() - any;
        let [_, longer, short, other_rams] = self.lent;
        write!(
            formatter,
            "{corners} corner RAMs and {any} others; {longer} longer buffers, {short} too short ones, {other_rams} RAMs of other lengths"
        )
    }
}
