//! What a text may have and be taken: one thing that the writer of presets does not write.

use super::made::{even_records, Made};
use super::record::{Endings, Letters, Record};
use random::Random;

listed!(
    /// How a text departs from the writer's form.
    Variation: SmallLetters, CarriageReturns, OtherOrder, OtherLengths, EmptyRecord, EndAddress
);

impl Variation {
    /// The text of a preset as it is written, but for this.
    pub fn done(self, random: &mut Random, written: &Made) -> Vec<u8> {
        let (mut style, mut records) = (written.style, written.records.clone());
        let end = records.len() - 1;
        match self {
            Variation::SmallLetters => style.letters = Letters::Small,
            Variation::CarriageReturns => style.endings = Endings::Both,
            Variation::OtherOrder => {
                let place = random.place(end);
                records.swap(place, (place + 1 + random.place(end - 1)) % end);
            }
            Variation::OtherLengths => records = even_records(&written.bytes, random.pick(&[1, 2, 7, 15, 17, 32, 128, 255])),
            Variation::EmptyRecord => records.insert(random.place(end + 1), Record { kind: 0, address: random.word(), data: Vec::new() }),
            Variation::EndAddress => records[end].address = 1 + random.below(0xffff) as u16,
        }
        Made::of(random, written.bytes.clone(), style, records).text()
    }
}
