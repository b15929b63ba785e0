//! A reproducible sequence of numbers (splitmix64): the same seed draws the same numbers on every machine.

pub struct Random(u64);

impl Random {
    pub fn new(seed: u64) -> Random {
        Random(seed)
    }

    /// Any 64 bits.
    #[allow(clippy::should_implement_trait, reason = "an iterator may end, and this sequence does not")]
    pub fn next(&mut self) -> u64 {
        self.0 = self.0.wrapping_add(0x9e37_79b9_7f4a_7c15);
        let mut z = self.0;
        z = (z ^ (z >> 30)).wrapping_mul(0xbf58_476d_1ce4_e5b9);
        z = (z ^ (z >> 27)).wrapping_mul(0x94d0_49bb_1331_11eb);
        z ^ (z >> 31)
    }

    /// 0 to `limit` - 1; of a limit of 0 it is 0.
    pub fn below(&mut self, limit: u32) -> u32 {
        (((self.next() >> 32) * u64::from(limit)) >> 32) as u32
    }

    /// True one time in so many.
    pub fn one_in(&mut self, chances: u32) -> bool {
        self.below(chances) == 0
    }

    pub fn flag(&mut self) -> bool {
        self.next() >> 63 == 1
    }

    /// A place in a list of this length, which 32 bits hold; in an empty one it is 0.
    pub fn place(&mut self, length: usize) -> usize {
        self.below(length as u32) as usize
    }

    /// One of a list that is not empty.
    pub fn pick<T: Copy>(&mut self, list: &[T]) -> T {
        list[self.place(list.len())]
    }

    /// Any 16 bits.
    pub fn word(&mut self) -> u16 {
        (self.next() >> 24) as u16
    }

    /// A number from -limit to limit, which is at most 32767.
    pub fn within(&mut self, limit: i64) -> i64 {
        i64::from(self.word()) % (2 * limit + 1) - limit
    }
}

#[cfg(test)]
mod tests {
    use super::Random;

    /// The first five numbers of seed 1234567 as they are published.
    #[test]
    fn the_sequence_is_splitmix64() {
        let mut random = Random::new(1234567);
        let published = [6457827717110365317, 3203168211198807973, 9817491932198370423, 4593380528125082431, 16408922859458223821];
        assert_eq!(published.map(|_| random.next()), published);
    }

    #[test]
    fn every_number_below_a_limit_is_drawn_and_no_other() {
        let mut random = Random::new(1);
        let mut drawn = [false; 5];
        (0..200).for_each(|_| drawn[random.below(5) as usize] = true);
        assert_eq!(drawn, [true; 5]);
        assert!((0..200).all(|_| random.below(1) == 0 && random.below(0) == 0));
    }

    #[test]
    fn both_ends_of_a_range_are_drawn_and_nothing_beyond() {
        let mut random = Random::new(2);
        let drawn: Vec<i64> = (0..200).map(|_| random.within(3)).collect();
        assert_eq!((drawn.iter().min(), drawn.iter().max()), (Some(&-3), Some(&3)));
    }
}
