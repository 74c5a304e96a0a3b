//! Key wrap with a schedule. The lengths of key data vary, so that these calls can be refused.

use crate::masks::Offset;
use crate::refusal::Refusal;
use crate::schedule::Schedule;
use crate::slices;

/// How much longer a wrapped key is than its key data.
const REGISTER: usize = 8;

/// Key wrap of RFC 3394, under the wrapping key that this is the schedule of. It has 32 bytes: the schedule of a shorter key is
/// refused before all else.
///
/// ```
/// use slipgrease::{Refusal, Schedule};
///
/// assert_eq!(Schedule::expand(&[1; 24]).wrap(&[2; 16]), Err(Refusal::ScheduleLength));
/// ```
impl Schedule {
    /// The key data wrapped, 8 bytes longer.
    ///
    /// Refused, in this order: a schedule that is not a 32-byte key's, key data not 16 to 256 bytes in a multiple of 8.
    ///
    /// ```
    /// use slipgrease::{Offset, Refusal, Schedule};
    ///
    /// // RFC 3394, 4.6.
    /// let schedule = Schedule::expand(&std::array::from_fn::<u8, 32, _>(|i| i as u8));
    /// let key_data: Vec<u8> = (0..16).map(|i| 0x11 * i).chain(0..16).collect();
    /// let wrapped = [
    ///     0x28c9f404c4b810f4_u64, 0xcbccb35cfb87f826, 0x3f5786e2d80ed326, 0xcbc7f0e71a99f43b, 0xfb988b9b7a02dd21,
    /// ]
    /// .map(u64::to_be_bytes)
    /// .concat();
    ///
    /// assert_eq!(schedule.wrap(&key_data), Ok(wrapped.clone()));
    /// assert_eq!(schedule.unwrap(&wrapped), Ok(key_data.clone()));
    /// for offset in Offset::all() {
    ///     assert_eq!(schedule.wrap_masked(&key_data, offset), Ok(wrapped.clone()));
    ///     assert_eq!(schedule.unwrap_masked(&wrapped, offset), Ok(key_data.clone()));
    /// }
    /// assert_eq!(schedule.wrap(&key_data[1..]), Err(Refusal::KeyDataLength));
    /// ```
    pub fn wrap(&self, key_data: &[u8]) -> Result<Vec<u8>, Refusal> {
        written(key_data.len() + REGISTER, |wrapped| slices::wrap(self.as_bytes(), key_data, wrapped))
    }

    /// The key data of a wrapped key.
    ///
    /// Refused, in this order: a schedule that is not a 32-byte key's, a wrapped key that is not 8 bytes longer than key data may
    /// be, and one whose integrity is broken, because it is damaged or was wrapped under another key.
    ///
    /// ```
    /// use slipgrease::{Refusal, Schedule};
    ///
    /// let wrapped = Schedule::expand(&[1; 32]).wrap(&[2; 16]).unwrap();
    /// assert_eq!(Schedule::expand(&[1; 32]).unwrap(&wrapped), Ok(vec![2; 16]));
    /// assert_eq!(Schedule::expand(&[3; 32]).unwrap(&wrapped), Err(Refusal::Integrity));
    /// assert_eq!(Schedule::expand(&[1; 32]).unwrap(&wrapped[..7]), Err(Refusal::KeyDataLength));
    /// ```
    pub fn unwrap(&self, wrapped: &[u8]) -> Result<Vec<u8>, Refusal> {
        written(without_register(wrapped), |key_data| slices::unwrap(self.as_bytes(), wrapped, key_data))
    }

    /// What [`wrap`](Schedule::wrap) gives, by the module's engine with the published masks and step 1, at one offset.
    ///
    /// Refused as that.
    pub fn wrap_masked(&self, key_data: &[u8], offset: Offset) -> Result<Vec<u8>, Refusal> {
        let offset = offset.number();
        written(key_data.len() + REGISTER, |wrapped| slices::wrap_masked(self.as_bytes(), key_data, wrapped, offset))
    }

    /// What [`unwrap`](Schedule::unwrap) gives, by the module's engine likewise, at any offset.
    ///
    /// Refused as that.
    pub fn unwrap_masked(&self, wrapped: &[u8], offset: Offset) -> Result<Vec<u8>, Refusal> {
        let offset = offset.number();
        written(without_register(wrapped), |key_data| slices::unwrap_masked(self.as_bytes(), wrapped, key_data, offset))
    }
}

/// How much key data a wrapped key has: none, where it is too short even for the register, and the library refuses that.
fn without_register(wrapped: &[u8]) -> usize {
    wrapped.len().saturating_sub(REGISTER)
}

/// What a call has written to a buffer of a length, if it was not refused.
fn written(length: usize, call: impl FnOnce(&mut [u8]) -> Result<(), Refusal>) -> Result<Vec<u8>, Refusal> {
    let mut buffer = vec![0; length];
    call(&mut buffer).map(|()| buffer)
}

#[cfg(test)]
mod tests {
    use crate::{Offset, Refusal, Schedule};

    /// Whatever else is wrong.
    #[test]
    fn shorter_keys_wrap_nothing() {
        let offset = Offset::new(3).unwrap();
        for schedule in [Schedule::expand(&[7; 16]), Schedule::expand(&[7; 24])] {
            for data in [&[2; 16][..], &[2; 24], &[2; 7]] {
                let replies = [
                    schedule.wrap(data),
                    schedule.unwrap(data),
                    schedule.wrap_masked(data, offset),
                    schedule.unwrap_masked(data, offset),
                ];
                assert!(replies.iter().all(|reply| *reply == Err(Refusal::ScheduleLength)), "{replies:?}");
            }
        }
    }

    /// Every length up to beyond the longest, both ways, by both engines at an offset each.
    #[test]
    fn key_data_of_each_length_comes_back_or_is_refused() {
        let schedule = Schedule::expand(&[7; 32]);
        for length in 0..=280 {
            let key_data: Vec<u8> = (0..length).map(|i| (i * 31) as u8).collect();
            let [there, back] = [length % 16, length / 8 % 16].map(|number| Offset::new(number as u8).unwrap());
            let wrapped = schedule.wrap(&key_data);
            assert_eq!(schedule.wrap_masked(&key_data, there), wrapped);
            match wrapped {
                Ok(wrapped) => {
                    assert!(length % 8 == 0 && (16..=256).contains(&length) && wrapped.len() == length + 8);
                    assert_eq!(schedule.unwrap(&wrapped), Ok(key_data.clone()));
                    assert_eq!(schedule.unwrap_masked(&wrapped, back), Ok(key_data));
                }
                Err(refusal) => {
                    assert!(length % 8 != 0 || !(16..=256).contains(&length));
                    assert_eq!(refusal, Refusal::KeyDataLength);
                    let too_much = vec![0; length + 8];
                    assert_eq!(schedule.unwrap(&too_much), Err(refusal));
                    assert_eq!(schedule.unwrap_masked(&too_much, back), Err(refusal));
                }
            }
        }
    }

    /// A wrapped key that has no room for a register is refused as having no key data.
    #[test]
    fn a_wrapped_key_without_a_register_has_no_key_data() {
        let schedule = Schedule::expand(&[7; 32]);
        for length in 0..8 {
            assert_eq!(schedule.unwrap(&vec![0xa6; length]), Err(Refusal::KeyDataLength));
            assert_eq!(schedule.unwrap_masked(&vec![0xa6; length], Offset::new(3).unwrap()), Err(Refusal::KeyDataLength));
        }
    }
}
