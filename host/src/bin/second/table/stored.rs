//! The converter of blocks that early modules stored in form 1.

use super::{plain_block, write, Call};
use crate::answer::{number, Answer};
use crate::cipher::{add, encrypt, State};
use crate::lent::Lent;
use crate::masked::{of_one, Masking, PUBLISHED};
use crate::replies::Cause::*;
use slipgrease::calls;

/// What early modules left on the finished block: Mask(offset + 14), of the published masks at step 1.
fn left_on(lent: &Lent) -> State {
    Masking { offsets: of_one(lent.offset), step: 1, masks: PUBLISHED }.mask(14)
}

/// Refused, it stops at the first call.
fn library_converted_twice(l: &mut Lent) -> Answer {
    let mut once = l.output.lent().to_vec();
    match calls::convert(l.input.lent(), &mut once, l.offset) {
        0 => number(calls::convert(&once, l.output.lent_mut(), l.offset)),
        refusal => number(refusal),
    }
}

/// What encrypt writes, covered here as early modules stored it. Encrypt judges all but the offset.
fn library_converted_from_stored(l: &mut Lent) -> Answer {
    let mut stored = l.output.lent().to_vec();
    match calls::encrypt(l.schedule.lent(), l.input.lent(), &mut stored) {
        0 => {
            stored.iter_mut().zip(left_on(l)).for_each(|(byte, mask)| *byte ^= mask);
            number(calls::convert(&stored, l.output.lent_mut(), l.offset))
        }
        refusal => number(refusal),
    }
}

pub const CALLS: &[Call] = &[
    Call {
        name: "convert",
        method: "xor of Mask(o+14)",
        refusals: &[Input, Output, Offset],
        library: |l| number(calls::convert(l.input.lent(), l.output.lent_mut(), l.offset)),
        reference: |_, l| {
            let block = add(&l.input.sixteen(), &left_on(l));
            write(&mut l.output, &block)
        },
    },
    Call {
        name: "convert",
        method: "its input, converted twice",
        refusals: &[Input, Output, Offset],
        library: library_converted_twice,
        reference: |_, l| write(&mut l.output, l.input.lent()),
    },
    Call {
        name: "convert",
        method: "CIPHER, stored in form 1",
        refusals: &[Schedule, Input, Output, Offset],
        library: library_converted_from_stored,
        reference: |b, l| plain_block(encrypt, b, l),
    },
];
