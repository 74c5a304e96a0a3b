//! A key schedule, and the runs with it that cannot be refused.

use crate::calls;
use crate::key::{Key, RoundKeys, Rounds};
use crate::masks::{Masks, Offset, Step};
use crate::offsets::Offsets;
use crate::record::{Direction, Record};
use crate::refusal::Refusal;
use crate::slices;
use crate::wiped::Wiped;
use std::fmt;

/// Sixteen bytes in, sixteen bytes out.
pub type Block = [u8; 16];

/// Lengths and numbers are in the types, so no call below can be refused.
const FITS: &str = "every length and number is right by its type";

/// The standard form, the only one that a masked run has since form 1 retired.
const FORM: u8 = 0;

/// The round keys of AES: eleven of them with a key of 16 bytes, thirteen with 24 and fifteen with 32, so 176, 208 or 240 bytes. Any
/// bytes of these lengths are taken. They are wiped when the schedule is dropped, and stay where they are when it is moved, so that
/// no copy is left behind.
///
/// ```
/// use slipgrease::{Refusal, Schedule};
///
/// let schedule = Schedule::expand(&[0; 32]);
/// assert_eq!(Schedule::try_from(schedule.as_bytes()), Ok(schedule));
/// assert_eq!(Schedule::try_from(&[0; 239][..]), Err(Refusal::ScheduleLength));
/// ```
#[derive(Clone, PartialEq, Eq)]
pub struct Schedule(Wiped);

impl Schedule {
    /// The schedule of a key, by FIPS 197's KEYEXPANSION.
    ///
    /// ```
    /// use slipgrease::Schedule;
    ///
    /// // FIPS 197, C.1 and C.2.
    /// let block = 0x00112233445566778899aabbccddeeff_u128.to_be_bytes();
    /// let of_16 = Schedule::expand(&std::array::from_fn::<u8, 16, _>(|i| i as u8));
    /// let of_24 = Schedule::expand(&std::array::from_fn::<u8, 24, _>(|i| i as u8));
    /// assert_eq!(of_16.encrypt(&block), 0x69c4e0d86a7b0430d8cdb78070b4c55a_u128.to_be_bytes());
    /// assert_eq!(of_24.encrypt(&block), 0xdda97ca4864cdfe06eaf70a0ec0d7191_u128.to_be_bytes());
    /// ```
    ///
    /// A key of another length is none:
    ///
    /// ```compile_fail
    /// slipgrease::Schedule::expand(&[0_u8; 31]);
    /// ```
    #[must_use]
    pub fn expand(key: &impl Key) -> Schedule {
        Schedule::expand_slice(key.as_ref()).expect(FITS)
    }

    /// The same of a key whose length is known only as the program runs.
    ///
    /// Refused: key not 16, 24 or 32 bytes.
    ///
    /// ```
    /// use slipgrease::{Refusal, Schedule};
    ///
    /// assert_eq!(Schedule::expand_slice(&[7; 16]), Ok(Schedule::expand(&[7; 16])));
    /// assert_eq!(Schedule::expand_slice(&[7; 31]), Err(Refusal::KeyLength));
    /// ```
    pub fn expand_slice(key: &[u8]) -> Result<Schedule, Refusal> {
        let mut bytes = Wiped::zeros(Rounds::of_key(key.len()).map_or(0, Rounds::schedule_bytes));
        slices::expand_key(key, &mut bytes).map(|()| Schedule(bytes))
    }

    /// A schedule of 176, 208 or 240 bytes. What is handed over is wiped; a copy that the caller keeps is not.
    ///
    /// ```
    /// use slipgrease::{Rounds, Schedule};
    ///
    /// assert_eq!(Schedule::new([0; 176]).rounds(), Rounds::Ten);
    /// ```
    ///
    /// ```compile_fail
    /// slipgrease::Schedule::new([0_u8; 160]);
    /// ```
    pub fn new(mut bytes: impl RoundKeys) -> Schedule {
        let bytes = bytes.as_mut();
        let schedule = Schedule(Wiped::from(&bytes[..]));
        calls::wipe(bytes);
        schedule
    }

    /// The 176, 208 or 240 bytes, round key k from 16 k on.
    pub fn as_bytes(&self) -> &[u8] {
        &self.0
    }

    /// How many rounds a run with it has.
    pub fn rounds(&self) -> Rounds {
        Rounds::of_schedule(self.0.len()).expect(FITS)
    }

    /// FIPS 197's CIPHER.
    #[must_use]
    pub fn encrypt(&self, block: &Block) -> Block {
        let mut output = [0; 16];
        slices::encrypt(&self.0, block, &mut output).expect(FITS);
        output
    }

    /// FIPS 197's INVCIPHER.
    #[must_use]
    pub fn decrypt(&self, block: &Block) -> Block {
        let mut output = [0; 16];
        slices::decrypt(&self.0, block, &mut output).expect(FITS);
        output
    }

    /// The states of a plain encryption: 51, 61 or 71.
    #[must_use]
    pub fn record(&self, block: &Block) -> Record {
        let mut record = Record::blank(Direction::Encryption, self.rounds());
        slices::record_plain(&self.0, block, record.as_bytes_mut()).expect(FITS);
        record
    }

    /// The block that a masked run with the published masks ends with, at one offset or at one for each byte: the one of
    /// [`encrypt`](Schedule::encrypt).
    ///
    /// ```
    /// use slipgrease::{Offset, Offsets, Schedule, Step};
    ///
    /// let schedule = Schedule::expand(&[1; 32]);
    /// let one = Offset::new(3).unwrap();
    /// let sixteen = Offsets::new([3, 9, 0, 15, 7, 7, 12, 4, 1, 10, 2, 8, 5, 14, 6, 11]).unwrap();
    /// assert_eq!(schedule.encrypt_published(&[2; 16], one, Step::ONE), schedule.encrypt(&[2; 16]));
    /// assert_eq!(schedule.encrypt_published(&[2; 16], sixteen, Step::ONE), schedule.encrypt(&[2; 16]));
    /// ```
    #[must_use]
    pub fn encrypt_published(&self, block: &Block, offsets: impl Into<Offsets>, step: Step) -> Block {
        let (offsets, mut output) = (offsets.into(), [0; 16]);
        slices::encrypt_published(&self.0, block, &mut output, offsets.as_bytes(), step.number(), FORM).expect(FITS);
        output
    }

    /// The same of many blocks, each at one offset of its own and all with one step, by one call for every 256 of them.
    ///
    /// ```
    /// use slipgrease::{Offset, Schedule, Step};
    ///
    /// let schedule = Schedule::expand(&[1; 32]);
    /// let blocks: Vec<_> = Offset::all().map(|offset| ([offset.number(); 16], offset)).collect();
    /// let made = schedule.encrypt_blocks(&blocks, Step::ONE);
    /// assert_eq!(made[7], schedule.encrypt(&[7; 16]));
    /// ```
    #[must_use]
    pub fn encrypt_blocks(&self, blocks: &[(Block, Offset)], step: Step) -> Vec<Block> {
        blocks.chunks(256).flat_map(|blocks| self.encrypt_at_once(blocks, step)).collect()
    }

    /// Up to 256 blocks.
    fn encrypt_at_once(&self, blocks: &[(Block, Offset)], step: Step) -> Vec<Block> {
        let mut input = Wiped::zeros(16 * blocks.len());
        input.chunks_exact_mut(16).zip(blocks).for_each(|(place, (block, _))| place.copy_from_slice(block));
        let offsets: Vec<u8> = blocks.iter().map(|(_, offset)| offset.number()).collect();
        let mut output = Wiped::zeros(input.len());
        slices::encrypt_blocks(&self.0, &input, &mut output, &offsets, step.number(), FORM).expect(FITS);
        output.chunks_exact(16).map(|block| block.try_into().expect(FITS)).collect()
    }

    /// The block that a masked run with any sixteen masks ends with: the same one.
    #[must_use]
    pub fn encrypt_masked(&self, block: &Block, masks: &Masks, offsets: impl Into<Offsets>, step: Step) -> Block {
        let (masks, offsets, mut output) = (masks.as_bytes(), offsets.into(), [0; 16]);
        slices::encrypt_masked(&self.0, block, &mut output, masks, offsets.as_bytes(), step.number(), FORM).expect(FITS);
        output
    }

    /// The states of a masked run: 51, 61 or 71.
    ///
    /// ```
    /// use slipgrease::{Masks, Offset, Schedule, Step};
    ///
    /// let schedule = Schedule::expand(&[1; 32]);
    /// let plain = schedule.record(&[2; 16]);
    /// let covered = schedule.record_masked(&[2; 16], &Masks::PUBLISHED, Offset::new(3).unwrap(), Step::new(5).unwrap());
    /// assert_ne!(covered.state(0), plain.state(0));
    /// assert_eq!(covered.state(70), plain.state(70));
    /// assert_eq!(covered.state(70), &schedule.encrypt(&[2; 16]));
    /// ```
    #[must_use]
    pub fn record_masked(&self, block: &Block, masks: &Masks, offsets: impl Into<Offsets>, step: Step) -> Record {
        let mut record = Record::blank(Direction::Encryption, self.rounds());
        let (masks, offsets, states) = (masks.as_bytes(), offsets.into(), record.as_bytes_mut());
        slices::record_masked(&self.0, block, masks, offsets.as_bytes(), step.number(), states).expect(FITS);
        record
    }

    /// The block that a masked decryption with the published masks ends with: the one of [`decrypt`](Schedule::decrypt). Neither the
    /// offsets nor the step need be those with which it was encrypted.
    ///
    /// ```
    /// use slipgrease::{Offset, Schedule, Step};
    ///
    /// let schedule = Schedule::expand(&[1; 32]);
    /// let made = schedule.encrypt_published(&[2; 16], Offset::new(3).unwrap(), Step::ONE);
    /// let other_step = Step::new(5).unwrap();
    /// assert_eq!(schedule.decrypt_published(&made, Offset::new(9).unwrap(), other_step), [2; 16]);
    /// ```
    #[must_use]
    pub fn decrypt_published(&self, block: &Block, offsets: impl Into<Offsets>, step: Step) -> Block {
        let (offsets, mut output) = (offsets.into(), [0; 16]);
        slices::decrypt_published(&self.0, block, &mut output, offsets.as_bytes(), step.number()).expect(FITS);
        output
    }

    /// The block that a masked decryption with any sixteen masks ends with: the same one.
    #[must_use]
    pub fn decrypt_masked(&self, block: &Block, masks: &Masks, offsets: impl Into<Offsets>, step: Step) -> Block {
        let (masks, offsets, mut output) = (masks.as_bytes(), offsets.into(), [0; 16]);
        slices::decrypt_masked(&self.0, block, &mut output, masks, offsets.as_bytes(), step.number()).expect(FITS);
        output
    }

    /// The states of a masked decryption: 61, 73 or 85.
    ///
    /// ```
    /// use slipgrease::{Direction, Masks, Offset, Schedule, Step};
    ///
    /// let schedule = Schedule::expand(&[1; 32]);
    /// let covered = schedule.record_masked_decryption(&[2; 16], &Masks::new([7; 16]), Offset::new(3).unwrap(), Step::ONE);
    /// assert_eq!(covered.direction(), Direction::Decryption);
    /// assert_eq!(covered.state(0), &[2 ^ 7; 16]);
    /// assert_eq!(covered.state(84), &schedule.decrypt(&[2; 16]));
    /// ```
    #[must_use]
    pub fn record_masked_decryption(&self, block: &Block, masks: &Masks, offsets: impl Into<Offsets>, step: Step) -> Record {
        let mut record = Record::blank(Direction::Decryption, self.rounds());
        let (masks, offsets, states) = (masks.as_bytes(), offsets.into(), record.as_bytes_mut());
        slices::record_masked_decryption(&self.0, block, masks, offsets.as_bytes(), step.number(), states).expect(FITS);
        record
    }
}

impl TryFrom<&[u8]> for Schedule {
    type Error = Refusal;

    fn try_from(bytes: &[u8]) -> Result<Schedule, Refusal> {
        match Rounds::of_schedule(bytes.len()) {
            Some(_) => Ok(Schedule(Wiped::from(bytes))),
            None => Err(Refusal::ScheduleLength),
        }
    }
}

/// Says nothing of the bytes: they are a key's.
impl fmt::Debug for Schedule {
    fn fmt(&self, f: &mut fmt::Formatter) -> fmt::Result {
        f.write_str("Schedule(..)")
    }
}

#[cfg(test)]
mod tests;
