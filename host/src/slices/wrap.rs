//! Key wrap of RFC 3394 over slices, by either engine.

use crate::calls;
use crate::refusal::Refusal;

/// Wraps key data, 16 to 256 bytes in a multiple of 8, by RFC 3394: under the schedule of the wrapping key, with the initial value
/// a6 eight times. What it writes is 8 bytes longer than the key data.
///
/// Refused, in this order: schedule not 240 bytes, key data not of those lengths, wrapped key not 8 bytes longer.
///
/// ```
/// // RFC 3394, 4.3.
/// let (mut schedule, mut wrapped) = ([0; 240], [0; 24]);
/// slipgrease::expand_key(&std::array::from_fn::<u8, 32, _>(|i| i as u8), &mut schedule)?;
/// slipgrease::wrap(&schedule, &0x00112233445566778899aabbccddeeff_u128.to_be_bytes(), &mut wrapped)?;
/// assert_eq!(wrapped[..8], 0x64e8c3f9ce0f5ba2_u64.to_be_bytes());
/// assert_eq!(wrapped[8..], 0x63e9777905818a2a93c8191e7d6e8ae7_u128.to_be_bytes());
/// # Ok::<(), slipgrease::Refusal>(())
/// ```
pub fn wrap(schedule: &[u8], key_data: &[u8], wrapped: &mut [u8]) -> Result<(), Refusal> {
    Refusal::check(calls::wrap(schedule, key_data, wrapped))
}

/// Opens a wrapped key and writes its key data, which is 8 bytes shorter.
///
/// Refused, in this order: schedule not 240 bytes, key data not 16 to 256 bytes in a multiple of 8, wrapped key not 8 bytes longer,
/// and last by integrity: the register that is recovered beside the key data is not a6 eight times. That is a fault of the data.
///
/// ```
/// use slipgrease::Refusal;
///
/// let (mut wrapped, mut key_data) = ([0; 40], [0; 32]);
/// slipgrease::wrap(&[3; 240], &[5; 32], &mut wrapped)?;
/// slipgrease::unwrap(&[3; 240], &wrapped, &mut key_data)?;
/// assert_eq!(key_data, [5; 32]);
///
/// let mut untouched = [0x55; 32];
/// wrapped[39] ^= 1;
/// assert_eq!(slipgrease::unwrap(&[3; 240], &wrapped, &mut untouched), Err(Refusal::Integrity));
/// assert_eq!(untouched, [0x55; 32]);
/// # Ok::<(), slipgrease::Refusal>(())
/// ```
pub fn unwrap(schedule: &[u8], wrapped: &[u8], key_data: &mut [u8]) -> Result<(), Refusal> {
    Refusal::check(calls::unwrap(schedule, wrapped, key_data))
}

/// What [`wrap`] writes, by the module's engine with the published masks and step 1, at one offset for the whole call.
///
/// Refused, in this order: schedule not 240 bytes, offset above 15, key data not 16 to 256 bytes in a multiple of 8, wrapped key
/// not 8 bytes longer.
///
/// ```
/// let (mut plain, mut masked) = ([0; 40], [0; 40]);
/// slipgrease::wrap(&[3; 240], &[5; 32], &mut plain)?;
/// slipgrease::wrap_masked(&[3; 240], &[5; 32], &mut masked, 11)?;
/// assert_eq!(masked, plain);
/// # Ok::<(), slipgrease::Refusal>(())
/// ```
pub fn wrap_masked(schedule: &[u8], key_data: &[u8], wrapped: &mut [u8], offset: u8) -> Result<(), Refusal> {
    Refusal::check(calls::wrap_masked(schedule, key_data, wrapped, offset))
}

/// What [`unwrap`] writes, by the module's engine likewise. The offset need not be the one at which the key was wrapped.
///
/// Refused, in this order: schedule not 240 bytes, offset above 15, key data not 16 to 256 bytes in a multiple of 8, wrapped key
/// not 8 bytes longer, and last by integrity.
///
/// ```
/// let (mut wrapped, mut key_data) = ([0; 40], [0; 32]);
/// slipgrease::wrap_masked(&[3; 240], &[5; 32], &mut wrapped, 11)?;
/// slipgrease::unwrap_masked(&[3; 240], &wrapped, &mut key_data, 2)?;
/// assert_eq!(key_data, [5; 32]);
/// # Ok::<(), slipgrease::Refusal>(())
/// ```
pub fn unwrap_masked(schedule: &[u8], wrapped: &[u8], key_data: &mut [u8], offset: u8) -> Result<(), Refusal> {
    Refusal::check(calls::unwrap_masked(schedule, wrapped, key_data, offset))
}

#[cfg(test)]
mod tests {
    use super::*;
    use Refusal::*;

    /// The lengths of what a call is lent, and its offset.
    struct Lent {
        schedule: usize,
        key_data: usize,
        wrapped: usize,
        offset: u8,
    }

    const THREES: [u8; 300] = [3; 300];

    /// Lent are threes, and the beginning of a buffer to write to.
    type Call = fn(&Lent, &mut [u8]) -> Result<(), Refusal>;

    /// Each call, whether it is masked, and whether it opens.
    const CALLS: [(Call, bool, bool); 4] = [
        (|l, out| wrap(&THREES[..l.schedule], &THREES[..l.key_data], &mut out[..l.wrapped]), false, false),
        (|l, out| unwrap(&THREES[..l.schedule], &THREES[..l.wrapped], &mut out[..l.key_data]), false, true),
        (|l, out| wrap_masked(&THREES[..l.schedule], &THREES[..l.key_data], &mut out[..l.wrapped], l.offset), true, false),
        (|l, out| unwrap_masked(&THREES[..l.schedule], &THREES[..l.wrapped], &mut out[..l.key_data], l.offset), true, true),
    ];

    /// The first cause in the order 2, 6, 16, 17, 18. Threes are no wrapped key, so that every call that opens is refused.
    fn expected(lent: &Lent, masked: bool, opens: bool) -> Result<(), Refusal> {
        let causes = [
            (lent.schedule != 240, ScheduleLength),
            (masked && lent.offset > 15, OffsetRange),
            (!(2..=32).any(|n| lent.key_data == 8 * n), KeyDataLength),
            (lent.wrapped != lent.key_data + 8, WrappedLength),
            (opens, Integrity),
        ];
        causes.into_iter().find(|cause| cause.0).map_or(Ok(()), |cause| Err(cause.1))
    }

    /// At every length of key data, with every set of other causes; and nothing is written then.
    #[test]
    fn calls_are_refused_in_their_order() {
        for key_data in 0..=280 {
            for (schedule, offset) in [(240, 0), (240, 15), (240, 16), (240, 255), (239, 0), (241, 16), (176, 0), (208, 16)] {
                for wrapped in [key_data + 8, key_data + 7, key_data + 9, key_data, 0] {
                    let lent = Lent { schedule, key_data, wrapped, offset };
                    for (call, masked, opens) in CALLS {
                        let mut written = [0x55; 300];
                        let reply = call(&lent, &mut written);
                        assert_eq!(reply, expected(&lent, masked, opens), "{schedule}, {offset}, {key_data}, {wrapped}");
                        assert_eq!(written == [0x55; 300], reply.is_err(), "{schedule}, {offset}, {key_data}, {wrapped}");
                    }
                }
            }
        }
    }
}
