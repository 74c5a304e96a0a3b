//! The calls that wrap keys, compared on every length of key data, at every offset, and on every bit of a register.

use crate::cases::draw;
use crate::compare::Trial;
use crate::lent::{Buffer, Lent};
use crate::random::Random;
use crate::replies::{opens, takes_key_data, Cause};
use crate::wrap::{wrapped, Value, INITIAL};

/// Whether the call wraps or unwraps, and so has been compared.
pub fn compare(trial: &mut Trial, random: &mut Random) -> bool {
    let refusals = trial.call.refusals;
    if !refusals.contains(&Cause::KeyData) {
        return false;
    }
    lengths(trial, random);
    if refusals.contains(&Cause::Offset) {
        offsets(trial, random);
    }
    if opens(refusals) {
        registers(trial, random);
        damages(trial, random);
    }
    true
}

/// Each length, with a buffer for the wrapped key that is no longer, one byte short, right and one byte too long.
fn lengths(trial: &mut Trial, random: &mut Random) {
    for length in 0..=272 {
        for wrapped in [length, length + 7, length + 8, length + 9] {
            let mut lent = with_key_data(trial, random, length, INITIAL);
            if wrapped != length + 8 {
                lent.wrapped = Buffer::any(random, wrapped);
            }
            trial.case(random, lent);
        }
    }
}

/// Each offset by itself and together with each other cause of a refusal; where it is taken, with short and the longest key data.
fn offsets(trial: &mut Trial, random: &mut Random) {
    let refusals = trial.call.refusals;
    for offset in 0..=255 {
        for length in if offset < 16 { &[16, 24, 256][..] } else { &[16] } {
            let lent = with_key_data(trial, random, *length, INITIAL);
            trial.case(random, Lent { offset, ..lent });
        }
        for &cause in refusals.iter().filter(|cause| **cause != Cause::Offset) {
            let lent = draw(random, trial.boxes, refusals, &[cause]);
            trial.case(random, Lent { offset, ..lent });
        }
    }
}

/// Wrapped under each initial value that is one bit off.
fn registers(trial: &mut Trial, random: &mut Random) {
    for (bit, length) in (0..64).flat_map(|bit| [(bit, 16), (bit, 40)]) {
        let mut initial = INITIAL;
        initial[bit / 8] ^= 1 << (bit % 8);
        let lent = with_key_data(trial, random, length, initial);
        trial.case(random, lent);
    }
}

/// With each bit of the shortest wrapped key changed.
fn damages(trial: &mut Trial, random: &mut Random) {
    for bit in 0..8 * 24 {
        let mut lent = with_key_data(trial, random, 16, INITIAL);
        lent.wrapped.lent_mut()[bit / 8] ^= 1 << (bit % 8);
        trial.case(random, lent);
    }
}

/// Key data of a length; and for a call that opens, other key data of that length, wrapped.
fn with_key_data(trial: &Trial, random: &mut Random, length: usize, initial: Value) -> Lent {
    let mut lent = draw(random, trial.boxes, trial.call.refusals, &[]);
    lent.key_data = Buffer::any(random, length);
    lent.wrapped = match opens(trial.call.refusals) && takes_key_data(length) {
        true => {
            let body = wrapped(trial.boxes, lent.schedule.lent(), initial, &random.bytes(length));
            Buffer::new(random, &body)
        }
        false => Buffer::any(random, length + 8),
    };
    lent
}
