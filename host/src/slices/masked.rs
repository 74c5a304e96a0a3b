//! The calls of the module's engine over slices.

use crate::calls;
use crate::refusal::Refusal;
#[cfg(doc)]
use crate::{convert, decrypt, encrypt, record_plain, Offsets};

/// Writes the block that a masked run with the published masks ends with: what [`encrypt`] writes, at all offsets and with every
/// step. There is an offset for each byte of the block, which is the label of the first mask over it; the step is how far the labels
/// advance in a round. [`Offsets::one`] makes those that one offset stands for.
///
/// Refused, in this order: schedule not 176, 208 or 240 bytes, input not 16, output not 16, not 16 offsets, any offset above 15,
/// step 0, 2, 3 or above 15, form not 0. The form is there for callers that still name it: form 1 has retired, and [`convert`] is
/// for what was stored in it.
///
/// ```
/// use slipgrease::{Offset, Offsets, Refusal};
///
/// let (mut plain, mut masked) = ([0; 16], [0; 16]);
/// slipgrease::encrypt(&[3; 240], &[5; 16], &mut plain)?;
/// let offsets = [7, 7, 0, 3, 12, 15, 15, 1, 0, 9, 4, 4, 4, 10, 2, 8];
/// slipgrease::encrypt_published(&[3; 240], &[5; 16], &mut masked, &offsets, 1, 0)?;
/// assert_eq!(masked, plain);
/// let of_one = Offsets::one(Offset::new(11)?);
/// slipgrease::encrypt_published(&[3; 240], &[5; 16], &mut masked, of_one.as_bytes(), 5, 0)?;
/// assert_eq!(masked, plain);
///
/// let refused = slipgrease::encrypt_published(&[3; 240], &[5; 16], &mut masked, &[11], 5, 1);
/// assert_eq!(refused, Err(Refusal::OffsetPerByte));
/// let refused = slipgrease::encrypt_published(&[3; 240], &[5; 16], &mut masked, &offsets, 5, 1);
/// assert_eq!(refused, Err(Refusal::FormUnknown));
/// # Ok::<(), slipgrease::Refusal>(())
/// ```
pub fn encrypt_published(
    schedule: &[u8],
    input: &[u8],
    output: &mut [u8],
    offsets: &[u8],
    step: u8,
    form: u8,
) -> Result<(), Refusal> {
    Refusal::check(calls::encrypt_published(schedule, input, output, offsets, step, form))
}

/// Writes for each of up to 256 blocks what [`encrypt_published`] would, at the offsets that one of its own stands for, and with one
/// step for all.
///
/// Refused, in this order: schedule not 176, 208 or 240 bytes, input not 16 for each of 256 blocks at most, output not as long as
/// the input, not one offset for each block, any offset above 15, step 0, 2, 3 or above 15, form not 0. A call without blocks is
/// done.
///
/// ```
/// use slipgrease::Refusal;
///
/// let (mut plain, mut masked) = ([0; 16], [0; 48]);
/// slipgrease::encrypt(&[3; 240], &[5; 16], &mut plain)?;
/// slipgrease::encrypt_blocks(&[3; 240], &[5; 48], &mut masked, &[11, 0, 15], 1, 0)?;
/// assert_eq!(masked[..], plain.repeat(3));
///
/// let mut untouched = [0x55; 48];
/// let refused = slipgrease::encrypt_blocks(&[3; 240], &[5; 48], &mut untouched, &[11, 0, 16], 1, 0);
/// assert_eq!((refused, untouched), (Err(Refusal::OffsetRange), [0x55; 48]));
/// # Ok::<(), slipgrease::Refusal>(())
/// ```
pub fn encrypt_blocks(
    schedule: &[u8],
    input: &[u8],
    output: &mut [u8],
    offsets: &[u8],
    step: u8,
    form: u8,
) -> Result<(), Refusal> {
    Refusal::check(calls::encrypt_blocks(schedule, input, output, offsets, step, form))
}

/// What [`encrypt_published`] writes, with any sixteen masks.
///
/// Refused, in this order: schedule not 176, 208 or 240 bytes, input not 16, output not 16, masks not 16, not 16 offsets, any
/// offset above 15, step 0, 2, 3 or above 15, form not 0.
///
/// ```
/// let (mut plain, mut masked) = ([0; 16], [0; 16]);
/// slipgrease::encrypt(&[3; 240], &[5; 16], &mut plain)?;
/// slipgrease::encrypt_masked(&[3; 240], &[5; 16], &mut masked, &[0xc4; 16], &[11; 16], 5, 0)?;
/// assert_eq!(masked, plain);
/// # Ok::<(), slipgrease::Refusal>(())
/// ```
pub fn encrypt_masked(
    schedule: &[u8],
    input: &[u8],
    output: &mut [u8],
    masks: &[u8],
    offsets: &[u8],
    step: u8,
    form: u8,
) -> Result<(), Refusal> {
    Refusal::check(calls::encrypt_masked(schedule, input, output, masks, offsets, step, form))
}

/// Writes the states of a masked run, as many as [`record_plain`] writes. Covered as they are, they give the key away as those do.
///
/// Refused, in this order: schedule not 176, 208 or 240 bytes, input not 16, masks not 16, not 16 offsets, any offset above 15,
/// step 0, 2, 3 or above 15, record not 16 for each state.
///
/// ```
/// let (mut plain, mut covered) = ([0; 1136], [0; 1136]);
/// slipgrease::record_plain(&[3; 240], &[5; 16], &mut plain)?;
/// slipgrease::record_masked(&[3; 240], &[5; 16], &[0; 16], &[11; 16], 5, &mut covered)?;
/// assert_eq!(covered, plain, "sixteen masks 00 cover nothing");
/// # Ok::<(), slipgrease::Refusal>(())
/// ```
pub fn record_masked(
    schedule: &[u8],
    input: &[u8],
    masks: &[u8],
    offsets: &[u8],
    step: u8,
    states: &mut [u8],
) -> Result<(), Refusal> {
    Refusal::check(calls::record_masked(schedule, input, masks, offsets, step, states))
}

/// Writes the block that a masked decryption with the published masks ends with: what [`decrypt`] writes, at all offsets and with
/// every step. Neither need be those of the run which encrypted the block.
///
/// Refused, in this order: schedule not 176, 208 or 240 bytes, input not 16, output not 16, not 16 offsets, any offset above 15,
/// step 0, 2, 3 or above 15.
///
/// ```
/// let (mut there, mut back) = ([0; 16], [0; 16]);
/// slipgrease::encrypt_published(&[3; 240], &[5; 16], &mut there, &[11; 16], 1, 0)?;
/// slipgrease::decrypt_published(&[3; 240], &there, &mut back, &[11; 16], 1)?;
/// assert_eq!(back, [5; 16]);
/// slipgrease::decrypt_published(&[3; 240], &there, &mut back, &[7, 7, 0, 3, 12, 15, 15, 1, 0, 9, 4, 4, 4, 10, 2, 8], 5)?;
/// assert_eq!(back, [5; 16]);
/// # Ok::<(), slipgrease::Refusal>(())
/// ```
pub fn decrypt_published(schedule: &[u8], input: &[u8], output: &mut [u8], offsets: &[u8], step: u8) -> Result<(), Refusal> {
    Refusal::check(calls::decrypt_published(schedule, input, output, offsets, step))
}

/// What [`decrypt_published`] writes, with any sixteen masks.
///
/// Refused, in this order: schedule not 176, 208 or 240 bytes, input not 16, output not 16, masks not 16, not 16 offsets, any
/// offset above 15, step 0, 2, 3 or above 15.
///
/// ```
/// let (mut plain, mut masked) = ([0; 16], [0; 16]);
/// slipgrease::decrypt(&[3; 240], &[5; 16], &mut plain)?;
/// slipgrease::decrypt_masked(&[3; 240], &[5; 16], &mut masked, &[0xc4; 16], &[11; 16], 5)?;
/// assert_eq!(masked, plain);
/// # Ok::<(), slipgrease::Refusal>(())
/// ```
pub fn decrypt_masked(
    schedule: &[u8],
    input: &[u8],
    output: &mut [u8],
    masks: &[u8],
    offsets: &[u8],
    step: u8,
) -> Result<(), Refusal> {
    Refusal::check(calls::decrypt_masked(schedule, input, output, masks, offsets, step))
}

/// Writes the states of a masked decryption, 16 bytes for each: 61 for ten rounds, which are 976 bytes, 73 for twelve, 1,168, and 85
/// for fourteen, 1,360. Covered as they are, they give the key away: state 0 xor state 1 is the last round key, and state 4 xor state
/// 5 is the one before.
///
/// Refused, in this order: schedule not 176, 208 or 240 bytes, input not 16, masks not 16, not 16 offsets, any offset above 15,
/// step 0, 2, 3 or above 15, record not 16 for each state.
///
/// ```
/// let (mut output, mut states) = ([0; 16], [0; 1360]);
/// slipgrease::decrypt(&[3; 240], &[5; 16], &mut output)?;
/// slipgrease::record_masked_decryption(&[3; 240], &[5; 16], &[0xc4; 16], &[11; 16], 5, &mut states)?;
/// assert_eq!((&states[..16], &states[1344..]), (&[5 ^ 0xc4; 16][..], &output[..]));
/// # Ok::<(), slipgrease::Refusal>(())
/// ```
pub fn record_masked_decryption(
    schedule: &[u8],
    input: &[u8],
    masks: &[u8],
    offsets: &[u8],
    step: u8,
    states: &mut [u8],
) -> Result<(), Refusal> {
    Refusal::check(calls::record_masked_decryption(schedule, input, masks, offsets, step, states))
}

#[cfg(test)]
mod tests;
