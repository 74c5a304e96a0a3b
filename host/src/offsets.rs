//! An offset for each byte of a block.

use crate::masks::Offset;
use crate::refusal::Refusal;

/// The offsets of a run, one for each byte of its block: the label of the mask over that byte when the run begins, 0 to 15.
///
/// One [`Offset`] stands for sixteen too: its own number for byte 0, and one more for each byte behind it, modulo 16. Where a call
/// takes `impl Into<Offsets>`, it takes that as well.
///
/// The boxes are called at the bytes 0, 2 .. 14 and then 1, 3 .. 15, and none should take the mask that the one before it has given.
/// At the sixteen of one offset none does, with any [`Step`](crate::Step). At others it can happen with every one: whoever chooses
/// them sees to that.
///
/// ```
/// use slipgrease::{Offset, Offsets, Refusal, Schedule, Step};
///
/// let one = Offset::new(12)?;
/// assert_eq!(Offsets::one(one).as_bytes(), &[12, 13, 14, 15, 0, 1, 2, 3, 4, 5, 6, 7, 8, 9, 10, 11]);
/// let sixteen = Offsets::new([7, 7, 0, 3, 12, 15, 15, 1, 0, 9, 4, 4, 4, 10, 2, 8])?;
///
/// let schedule = Schedule::expand(&[1; 32]);
/// let made = schedule.encrypt_published(&[2; 16], sixteen, Step::ONE);
/// assert_eq!(made, schedule.encrypt(&[2; 16]));
/// assert_eq!(schedule.decrypt_published(&made, one, Step::ONE), [2; 16]);
/// # Ok::<(), Refusal>(())
/// ```
#[derive(Clone, Copy, Debug, PartialEq, Eq, PartialOrd, Ord, Hash)]
pub struct Offsets([u8; 16]);

impl Offsets {
    /// Those that one offset stands for.
    pub fn one(offset: Offset) -> Offsets {
        Offsets(std::array::from_fn(|i| (offset.number() + i as u8) % 16))
    }

    /// Sixteen, if none is above 15.
    ///
    /// ```
    /// use slipgrease::{Offsets, Refusal};
    ///
    /// assert_eq!(Offsets::new([15; 16]).map(|offsets| offsets.as_bytes()[7]), Ok(15));
    /// assert_eq!(Offsets::new([0, 0, 0, 0, 0, 0, 0, 0, 0, 0, 0, 0, 0, 0, 0, 16]), Err(Refusal::OffsetRange));
    /// ```
    pub fn new(bytes: [u8; 16]) -> Result<Offsets, Refusal> {
        match bytes.iter().all(|byte| *byte < 16) {
            true => Ok(Offsets(bytes)),
            false => Err(Refusal::OffsetRange),
        }
    }

    /// The one offset that stands for these, if there is one.
    ///
    /// ```
    /// use slipgrease::{Offset, Offsets};
    ///
    /// assert!(Offset::all().all(|offset| Offsets::one(offset).as_one() == Some(offset)));
    /// assert_eq!(Offsets::new([3; 16]).unwrap().as_one(), None);
    /// ```
    pub fn as_one(self) -> Option<Offset> {
        Offset::all().find(|offset| Offsets::one(*offset) == self)
    }

    /// Each so much further on, modulo 16: the labels of a run that began at these, once they have advanced so far.
    ///
    /// ```
    /// use slipgrease::{Offset, Offsets};
    ///
    /// let [three, one] = [3, 1].map(|number| Offset::new(number).unwrap());
    /// assert_eq!(Offsets::one(three).advanced(14), Offsets::one(one));
    /// assert_eq!(Offsets::new([3; 16]).unwrap().advanced(14).as_bytes(), &[1; 16]);
    /// ```
    #[must_use]
    pub fn advanced(self, by: usize) -> Offsets {
        Offsets(self.0.map(|number| (number + (by % 16) as u8) % 16))
    }

    /// The sixteen numbers.
    pub fn as_bytes(&self) -> &[u8; 16] {
        &self.0
    }
}

impl From<Offset> for Offsets {
    fn from(offset: Offset) -> Offsets {
        Offsets::one(offset)
    }
}

impl TryFrom<[u8; 16]> for Offsets {
    type Error = Refusal;

    fn try_from(bytes: [u8; 16]) -> Result<Offsets, Refusal> {
        Offsets::new(bytes)
    }
}

/// Sixteen bytes, none above 15.
///
/// ```
/// use slipgrease::{Offsets, Refusal};
///
/// assert_eq!(Offsets::try_from(&[16; 15][..]), Err(Refusal::OffsetPerByte));
/// assert_eq!(Offsets::try_from(&[16; 16][..]), Err(Refusal::OffsetRange));
/// ```
impl TryFrom<&[u8]> for Offsets {
    type Error = Refusal;

    fn try_from(bytes: &[u8]) -> Result<Offsets, Refusal> {
        bytes.try_into().map_err(|_| Refusal::OffsetPerByte).and_then(Offsets::new)
    }
}

impl From<Offsets> for [u8; 16] {
    fn from(offsets: Offsets) -> [u8; 16] {
        offsets.0
    }
}

impl AsRef<[u8]> for Offsets {
    fn as_ref(&self) -> &[u8] {
        &self.0
    }
}

#[cfg(test)]
mod tests {
    use super::Offsets;
    use crate::{Masks, Offset, Refusal, Schedule, Step};

    /// Each number at each place, among others that are right.
    #[test]
    fn numbers_up_to_15_are_taken_at_every_place() {
        for (place, number) in (0..16).flat_map(|place| (0..=255).map(move |number| (place, number))) {
            let mut bytes = std::array::from_fn(|i| (i * i % 16) as u8);
            bytes[place] = number;
            let expected = if number < 16 { Ok(bytes) } else { Err(Refusal::OffsetRange) };
            assert_eq!(Offsets::new(bytes).map(<[u8; 16]>::from), expected);
            assert_eq!(Offsets::try_from(bytes).map(|offsets| *offsets.as_bytes()), expected);
            assert_eq!(Offsets::try_from(&bytes[..]).map(<[u8; 16]>::from), expected);
        }
        for length in (0..40).filter(|length| *length != 16) {
            assert_eq!(Offsets::try_from(&vec![16; length][..]), Err(Refusal::OffsetPerByte));
        }
    }

    /// Those of one offset are told from others that differ in one byte.
    #[test]
    fn one_offset_is_found_where_it_stands_for_all() {
        for (offset, place) in Offset::all().flat_map(|offset| (0..16).map(move |place| (offset, place))) {
            let mut bytes = *Offsets::one(offset).as_bytes();
            assert_eq!(bytes[place], (offset.number() + place as u8) % 16);
            for further in 0..16 {
                bytes[place] = (offset.number() + place as u8 + further) % 16;
                assert_eq!(Offsets::new(bytes).unwrap().as_one(), if further == 0 { Some(offset) } else { None });
            }
        }
    }

    /// As many labels on as a step of 15 goes in fourteen rounds, and further than any byte counts.
    #[test]
    fn labels_advance_modulo_16() {
        let offsets = Offsets::new([7, 7, 0, 3, 12, 15, 15, 1, 0, 9, 4, 4, 4, 10, 2, 8]).unwrap();
        for by in (0..=210).chain([255, 256, 1000, usize::MAX]) {
            let each = |i: usize| ((usize::from(offsets.as_bytes()[i]) + by % 16) % 16) as u8;
            assert_eq!(offsets.advanced(by).as_bytes(), &std::array::from_fn(each));
        }
    }

    /// What lies over the block is the mask of each byte's own offset.
    #[test]
    fn a_run_begins_under_the_masks_of_its_offsets() {
        let schedule = Schedule::expand(&[7; 32]);
        for offsets in [[15; 16], [0, 15, 1, 14, 2, 13, 3, 12, 4, 11, 5, 10, 6, 9, 7, 8]] {
            let masks = offsets.map(|offset| Masks::PUBLISHED.as_bytes()[usize::from(offset)]);
            let offsets = Offsets::new(offsets).unwrap();
            let forth = schedule.record_masked(&[0; 16], &Masks::PUBLISHED, offsets, Step::ONE);
            let back = schedule.record_masked_decryption(&[0; 16], &Masks::PUBLISHED, offsets, Step::ONE);
            assert_eq!((forth.state(0), back.state(0)), (&masks, &masks));
            assert_eq!(forth.state(70), &schedule.encrypt(&[0; 16]));
            assert_eq!(back.state(84), &schedule.decrypt(&[0; 16]));
        }
    }
}
