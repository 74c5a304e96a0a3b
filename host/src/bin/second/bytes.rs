//! The calls that take bytes alone, compared on all of them.

use crate::answer::{packed, value, Answer};
use crate::field;
use crate::masked::PUBLISHED;
use crate::random::Random;
use crate::report::Tally;
use crate::sheet;
use crate::tower;
use slipgrease::calls;

/// A call that takes one byte is given the first of two, and is tried on 256 inputs.
pub struct ByteCall {
    pub name: &'static str,
    pub method: &'static str,
    inputs: usize,
    library: fn(u8, u8) -> Answer,
    reference: fn(u8, u8) -> Answer,
}

impl ByteCall {
    /// Spoiled expectations must all be found to differ.
    pub fn compare(&self, random: &mut Random, spoiled: bool) -> Tally {
        let mut tally = Tally::default();
        for case in 0..self.inputs {
            let (a, b) = (case as u8, (case >> 8) as u8);
            let mut expected = (self.reference)(a, b);
            if spoiled {
                expected.spoil(random);
            }
            let given = (self.library)(a, b);
            let same = given == expected;
            if !same && !spoiled && tally.differ == 0 {
                println!("{}({a}, {b}): expected {expected:?}, given {given:?}", self.name);
            }
            tally.add(same);
        }
        tally
    }
}

pub const BYTE_CALLS: &[ByteCall] = &[
    ByteCall {
        name: "multiply",
        method: "by shifting",
        inputs: 1 << 16,
        library: |a, b| value(calls::multiply(a, b)),
        reference: |a, b| value(field::times(a, b)),
    },
    ByteCall {
        name: "inverse",
        method: "power 254",
        inputs: 1 << 8,
        library: |x, _| value(calls::inverse(x)),
        reference: |x, _| value(field::inverse(x)),
    },
    ByteCall {
        name: "logarithm",
        method: "by trying",
        inputs: 1 << 8,
        library: |x, _| packed(calls::logarithm(x)),
        reference: |x, _| match field::logarithm(x) {
            Some(n) => value(n),
            None => Answer { number: 9, value: 0 },
        },
    },
    ByteCall {
        name: "power",
        method: "by squaring",
        inputs: 1 << 8,
        library: |n, _| packed(calls::power(n)),
        reference: |n, _| match n {
            255 => Answer { number: 10, value: 0 },
            _ => value(field::raise(3, n)),
        },
    },
    ByteCall {
        name: "masked_inverse",
        method: "power 254 of the bare byte",
        inputs: 1 << 16,
        library: |x, r| value(calls::masked_inverse(x, r)),
        reference: |x, r| value(field::inverse(x ^ r) ^ r),
    },
    ByteCall {
        name: "tower_inverse",
        method: "power 254 of the bare byte's pair",
        inputs: 1 << 16,
        library: |x, r| value(calls::tower_inverse(x, r)),
        reference: |x, r| value(tower::inverse(x ^ r) ^ r),
    },
    ByteCall {
        name: "tower_box",
        method: "the same, and the affine map",
        inputs: 1 << 16,
        library: |label, x| value(calls::tower_box(label, x)),
        reference: |label, x| {
            let mask = |label: u8| PUBLISHED[usize::from(label % 16)];
            value(field::affine(tower::inverse(x ^ mask(label))) ^ mask(label.wrapping_add(1)))
        },
    },
    ByteCall {
        name: "sort_reply",
        method: "ranges",
        inputs: 1 << 8,
        library: |number, _| value(calls::sort_reply(number)),
        reference: |number, _| value(sheet::sorted(number)),
    },
];
