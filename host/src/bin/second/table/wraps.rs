//! Key wrap. By either engine it makes the same.

use super::{write, Call};
use crate::answer::number;
use crate::cipher::Boxes;
use crate::lent::Lent;
use crate::replies::Cause::*;
use crate::wrap::{unwrapped, wrapped, INITIAL};
use slipgrease::calls;

fn reference_wrapped(boxes: &Boxes, lent: &mut Lent) -> u8 {
    let bytes = wrapped(boxes, lent.schedule.lent(), INITIAL, lent.key_data.lent());
    write(&mut lent.wrapped, &bytes)
}

fn reference_unwrapped(boxes: &Boxes, lent: &mut Lent) -> u8 {
    let (_, key_data) = unwrapped(boxes, lent.schedule.lent(), lent.wrapped.lent());
    write(&mut lent.key_data, &key_data)
}

pub const CALLS: &[Call] = &[
    Call {
        name: "wrap",
        method: "RFC 3394 over CIPHER",
        refusals: &[FullSchedule, KeyData, Wrapped],
        library: |l| number(calls::wrap(l.schedule.lent(), l.key_data.lent(), l.wrapped.lent_mut())),
        reference: reference_wrapped,
    },
    Call {
        name: "unwrap",
        method: "RFC 3394 over INVCIPHER",
        refusals: &[FullSchedule, KeyData, Wrapped, Integrity],
        library: |l| number(calls::unwrap(l.schedule.lent(), l.wrapped.lent(), l.key_data.lent_mut())),
        reference: reference_unwrapped,
    },
    Call {
        name: "wrap_masked",
        method: "RFC 3394 over CIPHER",
        refusals: &[FullSchedule, Offset, KeyData, Wrapped],
        library: |l| number(calls::wrap_masked(l.schedule.lent(), l.key_data.lent(), l.wrapped.lent_mut(), l.offset)),
        reference: reference_wrapped,
    },
    Call {
        name: "unwrap_masked",
        method: "RFC 3394 over INVCIPHER",
        refusals: &[FullSchedule, Offset, KeyData, Wrapped, Integrity],
        library: |l| number(calls::unwrap_masked(l.schedule.lent(), l.wrapped.lent(), l.key_data.lent_mut(), l.offset)),
        reference: reference_unwrapped,
    },
];
