//! The plain engine.

use super::{plain_block, plain_states, write, Call};
use crate::answer::number;
use crate::cipher::{decrypt, encrypt, expand_key, Direction};
use crate::replies::Cause::*;
use slipgrease::calls;

pub const CALLS: &[Call] = &[
    Call {
        name: "expand_key",
        method: "KEYEXPANSION",
        refusals: &[Key, ScheduleOfKey],
        library: |l| number(calls::expand_key(l.key.lent(), l.schedule.lent_mut())),
        reference: |b, l| write(&mut l.schedule, &expand_key(b, l.key.lent())),
    },
    Call {
        name: "encrypt",
        method: "CIPHER",
        refusals: &[Schedule, Input, Output],
        library: |l| number(calls::encrypt(l.schedule.lent(), l.input.lent(), l.output.lent_mut())),
        reference: |b, l| plain_block(encrypt, b, l),
    },
    Call {
        name: "decrypt",
        method: "INVCIPHER",
        refusals: &[Schedule, Input, Output],
        library: |l| number(calls::decrypt(l.schedule.lent(), l.input.lent(), l.output.lent_mut())),
        reference: |b, l| plain_block(decrypt, b, l),
    },
    Call {
        name: "record_plain",
        method: "states of CIPHER",
        refusals: &[Schedule, Input, States],
        library: |l| number(calls::record_plain(l.schedule.lent(), l.input.lent(), l.states.lent_mut())),
        reference: |b, l| {
            let states = plain_states(Direction::Encryption, b, l);
            write(&mut l.states, &states.concat())
        },
    },
];
