//! An image's bytes by address while they are being gathered.

use crate::refusal::Refusal;

pub struct Image {
    bytes: Vec<Option<u8>>,
}

impl Image {
    pub fn empty(size: usize) -> Image {
        Image { bytes: vec![None; size] }
    }

    /// The bytes from an address on. Each byte gives its own address, so no bytes give none, wherever they would stand.
    pub fn give(&mut self, address: u16, data: &[u8]) -> Result<(), Refusal> {
        for (place, byte) in (usize::from(address)..).zip(data) {
            // "15 address outside, given twice"
            match self.bytes.get_mut(place) {
                Some(free @ None) => *free = Some(*byte),
                Some(Some(_)) | None => return Err(Refusal::Address),
            }
        }
        Ok(())
    }

    /// All the bytes, if "every address of the image" is given.
    pub fn whole(self) -> Result<Vec<u8>, Refusal> {
        let mut whole = Vec::with_capacity(self.bytes.len());
        for byte in self.bytes {
            whole.push(byte.ok_or(Refusal::Address)?);
        }
        Ok(whole)
    }
}

#[cfg(test)]
mod tests {
    use super::*;

    #[test]
    fn bytes_come_back_in_the_order_of_their_addresses() {
        let mut image = Image::empty(4);
        assert_eq!(image.give(2, &[30, 40]), Ok(()));
        assert_eq!(image.give(0, &[10, 20]), Ok(()));
        assert_eq!(image.whole(), Ok(vec![10, 20, 30, 40]));
    }

    #[test]
    fn twice_and_outside_and_missing_are_refused() {
        let mut image = Image::empty(4);
        assert_eq!(image.give(1, &[0, 0]), Ok(()));
        assert_eq!(image.give(0, &[0, 0]), Err(Refusal::Address));
        assert_eq!(image.give(3, &[0, 0]), Err(Refusal::Address));
        assert_eq!(image.give(65535, &[0, 0]), Err(Refusal::Address));
        assert_eq!(Image::empty(4).whole(), Err(Refusal::Address));
    }

    #[test]
    fn no_bytes_are_nowhere_outside_and_never_given_twice() {
        let mut image = Image::empty(1);
        assert_eq!(image.give(0, &[7]), Ok(()));
        assert!([0, 1, 2, 65535].iter().all(|address| image.give(*address, &[]) == Ok(())));
        assert_eq!(image.whole(), Ok(vec![7]));
    }
}
