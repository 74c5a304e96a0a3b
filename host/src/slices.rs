//! Every call of the library over slices of any length: the lengths are the library's to judge.
//!
//! Buffers that are written share no byte with others, which Rust sees to.

mod masked;
mod packets;
mod wrap;

pub use masked::*;
pub use packets::*;
pub use wrap::*;

use crate::calls;
use crate::refusal::Refusal;

/// Writes FIPS 197's KEYEXPANSION of a key: 176 bytes for a key of 16, 208 for 24, and 240 for 32.
///
/// Refused, in this order: key not 16, 24 or 32 bytes, schedule not as long as the key's.
///
/// ```
/// use slipgrease::Refusal;
///
/// let mut schedule = [0; 240];
/// slipgrease::expand_key(&[0; 32], &mut schedule)?;
/// assert_eq!(schedule[32..36], [0x62, 0x63, 0x63, 0x63]);
/// slipgrease::expand_key(&[0; 16], &mut schedule[..176])?;
/// assert_eq!(schedule[16..20], [0x62, 0x63, 0x63, 0x63]);
/// assert_eq!(slipgrease::expand_key(&[0; 16], &mut schedule), Err(Refusal::ScheduleLength));
/// # Ok::<(), slipgrease::Refusal>(())
/// ```
pub fn expand_key(key: &[u8], schedule: &mut [u8]) -> Result<(), Refusal> {
    Refusal::check(calls::expand_key(key, schedule))
}

/// Writes FIPS 197's CIPHER of a block, with ten, twelve or fourteen rounds by the schedule's length.
///
/// Refused, in this order: schedule not 176, 208 or 240 bytes, input not 16, output not 16.
///
/// ```
/// use slipgrease::Refusal;
///
/// let mut output = [0x55; 16];
/// assert_eq!(slipgrease::encrypt(&[0; 240], &[0; 15], &mut output), Err(Refusal::InputLength));
/// assert_eq!(output, [0x55; 16]);
/// ```
pub fn encrypt(schedule: &[u8], input: &[u8], output: &mut [u8]) -> Result<(), Refusal> {
    Refusal::check(calls::encrypt(schedule, input, output))
}

/// Writes FIPS 197's INVCIPHER of a block. Refused as [`encrypt`] is.
///
/// ```
/// let (schedule, block) = ([3; 240], [5; 16]);
/// let (mut there, mut back) = ([0; 16], [0; 16]);
/// slipgrease::encrypt(&schedule, &block, &mut there)?;
/// slipgrease::decrypt(&schedule, &there, &mut back)?;
/// assert_eq!(back, block);
/// # Ok::<(), slipgrease::Refusal>(())
/// ```
pub fn decrypt(schedule: &[u8], input: &[u8], output: &mut [u8]) -> Result<(), Refusal> {
    Refusal::check(calls::decrypt(schedule, input, output))
}

/// Writes the states of a plain encryption, 16 bytes for each: 51 for ten rounds, which are 816 bytes, 61 for twelve, 976, and 71 for
/// fourteen, 1,136. They give the key away: state 0 xor state 1 is round key 0, and state 5 xor state 6 is round key 1.
///
/// Refused, in this order: schedule not 176, 208 or 240 bytes, input not 16, record not 16 for each state.
///
/// ```
/// let mut states = [0; 1136];
/// slipgrease::record_plain(&[3; 240], &[5; 16], &mut states)?;
/// assert_eq!((&states[..16], &states[16..32]), (&[5; 16][..], &[5 ^ 3; 16][..]));
/// # Ok::<(), slipgrease::Refusal>(())
/// ```
pub fn record_plain(schedule: &[u8], input: &[u8], states: &mut [u8]) -> Result<(), Refusal> {
    Refusal::check(calls::record_plain(schedule, input, states))
}

/// Writes the sixteen masks of a sheet and gives its step: in version 2 the last byte, and 1 for version 1, which has none.
///
/// Refused, in this order: sheet shorter than 5 bytes, mark wrong, version not 1 or 2, sheet not 21 bytes in version 1 or 22 in
/// version 2, step of version 2 not 4 to 15, masks not 16 bytes.
///
/// ```
/// let mut masks = [0; 16];
/// assert_eq!(slipgrease::read_sheet(b"MSK\x00\x01sixteen bytes...", &mut masks), Ok(1));
/// assert_eq!(&masks, b"sixteen bytes...");
/// assert_eq!(slipgrease::read_sheet(b"MSK\x00\x02sixteen bytes!!!\x05", &mut masks), Ok(5));
/// assert_eq!(&masks, b"sixteen bytes!!!");
/// ```
pub fn read_sheet(sheet: &[u8], masks: &mut [u8]) -> Result<u8, Refusal> {
    valued(calls::read_sheet(sheet, masks))
}

/// Writes the sheet of sixteen masks and a step: version 1, 21 bytes, for step 1, and version 2, 22 bytes, for any other.
///
/// Refused, in this order: step 0, 2, 3 or above 15, sheet not that long, masks not 16 bytes.
///
/// ```
/// let (mut of_step_1, mut of_step_5) = ([0; 21], [0; 22]);
/// slipgrease::write_sheet(b"sixteen bytes...", 1, &mut of_step_1)?;
/// slipgrease::write_sheet(b"sixteen bytes...", 5, &mut of_step_5)?;
/// assert_eq!(&of_step_1, b"MSK\x00\x01sixteen bytes...");
/// assert_eq!(&of_step_5, b"MSK\x00\x02sixteen bytes...\x05");
/// # Ok::<(), slipgrease::Refusal>(())
/// ```
pub fn write_sheet(masks: &[u8], step: u8, sheet: &mut [u8]) -> Result<(), Refusal> {
    Refusal::check(calls::write_sheet(masks, step, sheet))
}

/// Whether a mask table is fit: any three of the eight bit positions show each of their eight patterns in exactly two of the
/// sixteen masks.
///
/// Refused: masks not 16 bytes.
///
/// ```
/// let from_zero_to_fifteen: [u8; 16] = std::array::from_fn(|i| i as u8);
/// assert_eq!(slipgrease::fitness(slipgrease::Masks::PUBLISHED.as_bytes()), Ok(true));
/// assert_eq!(slipgrease::fitness(&from_zero_to_fifteen), Ok(false));
/// ```
pub fn fitness(masks: &[u8]) -> Result<bool, Refusal> {
    valued(calls::fitness(masks)).map(|value| value == 1)
}

/// At how many of the sixteen offsets three bits of the mask over a byte show a pattern, in a row of the mask table: in any round, and
/// with any step. Rows are 1 to 7: covered block, after a key, boxes, ShiftRows, MixColumns, compensation and the last key. The bits
/// rise, 0 being the lowest of a byte; in the pattern, 0 to 7, the highest of the three is the highest. Of a row, byte, triple or
/// pattern that there is not, the count is 0. [`Masks::report`](crate::Masks::report) has all of them.
///
/// Refused: masks not 16 bytes.
///
/// ```
/// let published = slipgrease::Masks::PUBLISHED.as_bytes();
/// assert_eq!(slipgrease::mask_count(published, 2, 0, [5, 6, 7], 0b111), Ok(2));
/// assert_eq!(slipgrease::mask_count(published, 5, 0, [5, 6, 7], 0b111), Ok(3));
/// assert_eq!(slipgrease::mask_count(published, 8, 0, [5, 6, 7], 0b111), Ok(0));
/// ```
pub fn mask_count(masks: &[u8], row: u8, byte: u8, bits: [u8; 3], pattern: u8) -> Result<u8, Refusal> {
    let [low, middle, high] = bits;
    valued(calls::mask_count(masks, row, byte, low, middle, high, pattern))
}

/// Writes the standard block of one that an early module stored in form 1, with the published masks and step 1: it takes off
/// Mask(o+14), which was left on it at offset o, since early modules had keys of 32 bytes alone. Of a standard block it writes the
/// stored one, so that twice gives the input back.
///
/// Refused, in this order: input not 16 bytes, output not 16, offset above 15.
///
/// ```
/// // At offset 2 the mask is Mask(16), which is Mask(0): the published masks as they stand.
/// let (mut standard, mut back) = ([0; 16], [0; 16]);
/// slipgrease::convert(slipgrease::Masks::PUBLISHED.as_bytes(), &mut standard, 2)?;
/// assert_eq!(standard, [0; 16]);
/// slipgrease::convert(&standard, &mut back, 2)?;
/// assert_eq!(&back, slipgrease::Masks::PUBLISHED.as_bytes());
/// # Ok::<(), slipgrease::Refusal>(())
/// ```
pub fn convert(input: &[u8], output: &mut [u8], offset: u8) -> Result<(), Refusal> {
    Refusal::check(calls::convert(input, output, offset))
}

/// The product of two bytes in FIPS 197's field.
///
/// ```
/// assert_eq!(slipgrease::multiply(0x57, 0x83), 0xc1);
/// ```
#[must_use]
pub fn multiply(a: u8, b: u8) -> u8 {
    calls::multiply(a, b)
}

/// The inverse of a byte, and 00 for 00.
///
/// ```
/// assert_eq!(slipgrease::inverse(0x53), 0xca);
/// ```
#[must_use]
pub fn inverse(x: u8) -> u8 {
    calls::inverse(x)
}

/// Which power of 03 a byte is. Refused: 00.
///
/// ```
/// assert_eq!(slipgrease::logarithm(0x03), Ok(1));
/// assert_eq!(slipgrease::logarithm(0x00), Err(slipgrease::Refusal::NoLogarithm));
/// ```
pub fn logarithm(x: u8) -> Result<u8, Refusal> {
    valued(calls::logarithm(x))
}

/// 03 to the power n, n being 0 to 254. Refused: 255.
///
/// ```
/// assert_eq!(slipgrease::power(254), Ok(slipgrease::inverse(0x03)));
/// assert_eq!(slipgrease::power(255), Err(slipgrease::Refusal::PowerRange));
/// ```
pub fn power(n: u8) -> Result<u8, Refusal> {
    valued(calls::power(n))
}

/// The inverse of x xor r, xored with r: a covered byte and its mask give the covered inverse.
///
/// ```
/// assert_eq!(slipgrease::masked_inverse(0x00, 0x53), 0x99);
/// ```
#[must_use]
pub fn masked_inverse(x: u8, r: u8) -> u8 {
    calls::masked_inverse(x, r)
}

/// The same as [`masked_inverse`], by inversion in a field of halves of four bits, with four tables of 256 bytes.
///
/// ```
/// assert_eq!(slipgrease::tower_inverse(0x00, 0x53), 0x99);
/// ```
#[must_use]
pub fn tower_inverse(x: u8, r: u8) -> u8 {
    calls::tower_inverse(x, r)
}

/// What the masked box of a label makes of a byte, S(x xor M(label)) xor M(label+1) with the published masks, by [`tower_inverse`], so
/// that no box is stored for it. Labels are counted modulo 16.
///
/// ```
/// // Under M(0), which is 00, and above M(1), which is 0f.
/// assert_eq!(slipgrease::tower_box(0, 0x53), 0xed ^ 0x0f);
/// ```
#[must_use]
pub fn tower_box(label: u8, x: u8) -> u8 {
    calls::tower_box(label, x)
}

/// A number and a value come as one, number * 256 + value.
fn valued(both: u16) -> Result<u8, Refusal> {
    let [number, value] = both.to_be_bytes();
    Refusal::check(number).map(|()| value)
}
