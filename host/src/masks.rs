//! The sixteen masks, the offset at which a run begins with them, and the step by which it goes on.

use crate::refusal::Refusal;
use crate::report::Report;
use crate::schedule::Block;
use crate::slices;

/// Sixteen masks. Any sixteen bytes are taken, fit or not.
///
/// ```
/// use slipgrease::{Masks, Refusal};
///
/// assert!(Masks::PUBLISHED.are_fit());
/// assert!(!Masks::new([7; 16]).are_fit());
/// assert_eq!(Masks::try_from(&[7; 15][..]), Err(Refusal::MasksLength));
/// ```
#[derive(Clone, Copy, Debug, PartialEq, Eq, PartialOrd, Ord, Hash)]
pub struct Masks([u8; 16]);

impl Masks {
    /// The masks that `encrypt_published` and `decrypt_published` have, as the "Description of the masked AES of the DPA contest v4"
    /// prints them.
    pub const PUBLISHED: Masks =
        Masks([0x00, 0x0f, 0x36, 0x39, 0x53, 0x5c, 0x65, 0x6a, 0x95, 0x9a, 0xa3, 0xac, 0xc6, 0xc9, 0xf0, 0xff]);

    /// Masks of sixteen bytes.
    pub fn new(bytes: [u8; 16]) -> Masks {
        Masks(bytes)
    }

    /// The masks and the step of a sheet.
    ///
    /// ```
    /// use slipgrease::{Masks, Refusal, Step};
    ///
    /// let mut sheet = Masks::PUBLISHED.to_sheet(Step::ONE);
    /// assert_eq!(Masks::from_sheet(&sheet), Ok((Masks::PUBLISHED, Step::ONE)));
    /// sheet[0] = b'm';
    /// assert_eq!(Masks::from_sheet(&sheet), Err(Refusal::MarkWrong));
    /// ```
    pub fn from_sheet(sheet: &[u8]) -> Result<(Masks, Step), Refusal> {
        let mut bytes = [0; 16];
        slices::read_sheet(sheet, &mut bytes).map(|step| (Masks(bytes), Step(step)))
    }

    /// The sheet of these masks and a step. For step 1 it is of version 1: the mark "MSK", the version and the masks, 21 bytes.
    /// For any other it is of version 2, with the step behind them, 22 bytes.
    ///
    /// ```
    /// use slipgrease::{Masks, Step};
    ///
    /// let step = Step::new(5).unwrap();
    /// let sheet = Masks::PUBLISHED.to_sheet(step);
    /// assert_eq!((sheet.len(), sheet[4], sheet[21]), (22, 2, 5));
    /// assert_eq!(Masks::from_sheet(&sheet), Ok((Masks::PUBLISHED, step)));
    /// ```
    #[must_use]
    pub fn to_sheet(&self, step: Step) -> Vec<u8> {
        let mut sheet = vec![0; if step == Step::ONE { 21 } else { 22 }];
        slices::write_sheet(&self.0, step.number(), &mut sheet).expect("step and lengths are right");
        sheet
    }

    /// Whether they are fit: any three bit positions show each of their eight patterns in exactly two of the masks.
    #[must_use]
    pub fn are_fit(&self) -> bool {
        slices::fitness(&self.0).expect("the length is right")
    }

    /// How often each pattern of any three bits shows over the sixteen offsets, in every row of the mask table and over every byte.
    ///
    /// ```
    /// use slipgrease::{Masks, Row};
    ///
    /// // Bit 0 of one mask is wrong: of the 56 triples those 35 are even that are without it.
    /// let mut masks = *Masks::PUBLISHED.as_bytes();
    /// masks[5] ^= 0x01;
    /// let report = Masks::new(masks).report();
    /// assert_eq!(report.even_in(Row::Block, 0), 35);
    /// ```
    #[must_use]
    pub fn report(&self) -> Report {
        Report::of(self)
    }

    /// The sixteen bytes.
    pub fn as_bytes(&self) -> &[u8; 16] {
        &self.0
    }
}

impl From<[u8; 16]> for Masks {
    fn from(bytes: [u8; 16]) -> Masks {
        Masks(bytes)
    }
}

impl AsRef<[u8]> for Masks {
    fn as_ref(&self) -> &[u8] {
        &self.0
    }
}

impl TryFrom<&[u8]> for Masks {
    type Error = Refusal;

    fn try_from(bytes: &[u8]) -> Result<Masks, Refusal> {
        bytes.try_into().map(Masks).map_err(|_| Refusal::MasksLength)
    }
}

/// The label of the first mask of a run, 0 to 15: the one over byte 0, behind which each byte has the next, modulo 16. Labels that
/// do not follow one another so are [`Offsets`](crate::Offsets).
///
/// ```
/// use slipgrease::{Offset, Refusal};
///
/// assert_eq!(Offset::new(15).map(Offset::number), Ok(15));
/// assert_eq!(Offset::new(16), Err(Refusal::OffsetRange));
/// assert_eq!(Offset::all().count(), 16);
/// ```
#[derive(Clone, Copy, Debug, PartialEq, Eq, PartialOrd, Ord, Hash)]
pub struct Offset(u8);

impl Offset {
    /// An offset, if the number is at most 15.
    pub fn new(number: u8) -> Result<Offset, Refusal> {
        match number {
            0..=15 => Ok(Offset(number)),
            _ => Err(Refusal::OffsetRange),
        }
    }

    /// All sixteen, from 0 on.
    pub fn all() -> impl Iterator<Item = Offset> {
        (0..16).map(Offset)
    }

    /// Its number.
    pub fn number(self) -> u8 {
        self.0
    }

    /// The standard block of one that an early module stored in form 1 after a run at this offset, with the published masks and
    /// step 1. Of a standard block it makes the stored one.
    ///
    /// ```
    /// use slipgrease::Offset;
    ///
    /// // The ciphertext of FIPS 197, C.3, and the same under Mask(14): f0 ff 00 0f 36 39 53 5c 65 6a 95 9a a3 ac c6 c9.
    /// let standard = 0x8ea2b7ca516745bfeafc49904b496089_u128.to_be_bytes();
    /// let stored = 0x7e5db7c5675e16e38f96dc0ae8e5a640_u128.to_be_bytes();
    /// let offset = Offset::new(0).unwrap();
    /// assert_eq!(offset.convert(&stored), standard);
    /// assert_eq!(offset.convert(&standard), stored);
    /// ```
    #[must_use]
    pub fn convert(self, stored: &Block) -> Block {
        let mut standard = [0; 16];
        slices::convert(stored, &mut standard, self.0).expect("offset and lengths are right");
        standard
    }
}

impl TryFrom<u8> for Offset {
    type Error = Refusal;

    fn try_from(number: u8) -> Result<Offset, Refusal> {
        Offset::new(number)
    }
}

impl From<Offset> for u8 {
    fn from(offset: Offset) -> u8 {
        offset.0
    }
}

/// How far the labels of the masks advance in a round: 1, or 4 to 15. Each series of modules has its own.
///
/// ```
/// use slipgrease::{Refusal, Step};
///
/// assert_eq!(Step::new(1), Ok(Step::ONE));
/// assert_eq!(Step::new(15).map(Step::number), Ok(15));
/// for number in [0, 2, 3, 16] {
///     assert_eq!(Step::new(number), Err(Refusal::StepWrong));
/// }
/// assert_eq!(Step::all().count(), 13);
/// ```
#[derive(Clone, Copy, Debug, PartialEq, Eq, PartialOrd, Ord, Hash)]
pub struct Step(u8);

impl Step {
    /// The step of the first modules, for which the library has its boxes stored. For others it works them out, call by call.
    pub const ONE: Step = Step(1);

    /// A step, if the number is 1 or 4 to 15: 0 would keep one mask through a box, and at one offset 2 and 3 would put what a box
    /// gives and what the next one called takes under the same mask.
    pub fn new(number: u8) -> Result<Step, Refusal> {
        match number {
            1 | 4..=15 => Ok(Step(number)),
            _ => Err(Refusal::StepWrong),
        }
    }

    /// All thirteen, from 1 on.
    pub fn all() -> impl Iterator<Item = Step> {
        (1..16).filter_map(|number| Step::new(number).ok())
    }

    /// Its number.
    pub fn number(self) -> u8 {
        self.0
    }
}

impl TryFrom<u8> for Step {
    type Error = Refusal;

    fn try_from(number: u8) -> Result<Step, Refusal> {
        Step::new(number)
    }
}

impl From<Step> for u8 {
    fn from(step: Step) -> u8 {
        step.0
    }
}

#[cfg(test)]
mod tests {
    use super::{Masks, Offset, Step};
    use crate::Schedule;

    /// An early module left Mask(o+14) on the block, whose byte i is mask o + 14 + i.
    #[test]
    fn what_was_stored_becomes_what_is_made_now() {
        let schedule = Schedule::expand(&[7; 32]);
        for offset in Offset::all() {
            let made = schedule.encrypt_published(&[9; 16], offset, Step::ONE);
            let label = usize::from(offset.number()) + 14;
            let stored = std::array::from_fn(|i| made[i] ^ Masks::PUBLISHED.as_bytes()[(label + i) % 16]);
            assert_eq!(offset.convert(&stored), made);
            assert_eq!(offset.convert(&made), stored);
        }
    }

    /// Every step goes through a sheet of either version.
    #[test]
    fn a_sheet_keeps_masks_and_step() {
        for step in Step::all() {
            let sheet = Masks::PUBLISHED.to_sheet(step);
            assert_eq!(Masks::from_sheet(&sheet), Ok((Masks::PUBLISHED, step)));
        }
    }
}
