//! Draws key data and wrapped keys.

use super::{content, wrong_length};
use crate::cipher::Boxes;
use crate::random::Random;
use crate::replies::{opens, Cause};
use crate::wrap::{wrapped, INITIAL};

/// Key data, and a buffer that is 8 bytes longer. Where a call opens a wrapped key and all lengths are right, this buffer has one,
/// and the key data is what is written over.
pub fn pair(
    random: &mut Random,
    boxes: &Boxes,
    schedule: &[u8],
    order: &[Cause],
    wants: impl Fn(Cause) -> bool,
) -> (Vec<u8>, Vec<u8>) {
    let length = length(random, wants(Cause::KeyData));
    let key_data = content(random, length);
    let lengths = [Cause::FullSchedule, Cause::KeyData, Cause::Wrapped];
    let wrapped = if opens(order) && !lengths.into_iter().any(&wants) {
        let other = content(random, length);
        wrap(random, boxes, schedule, &other, wants(Cause::Integrity))
    } else {
        let right = length + 8;
        let length = if wants(Cause::Wrapped) { wrong_length(random, right) } else { right };
        content(random, length)
    };
    (key_data, wrapped)
}

/// Mostly short, because a wrap of n values is 6 n blocks, and at times any that is taken; wrong, beside those or between them.
fn length(random: &mut Random, wrong: bool) -> usize {
    match (wrong, random.below(64)) {
        (true, 0..=31) => [0, 8, 15, 17, 255, 257, 264, 512][random.below(8)],
        (true, _) => 8 * random.below(40) + 1 + random.below(7),
        (false, 0..=1) => 8 * (2 + random.below(31)),
        (false, _) => 8 * (2 + random.below(3)),
    }
}

/// A wrapped key; broken, it has another initial value, mostly in one bit, or is damaged in one bit, or is none at all.
fn wrap(random: &mut Random, boxes: &Boxes, schedule: &[u8], key_data: &[u8], broken: bool) -> Vec<u8> {
    let (mut initial, way) = (INITIAL, random.below(8));
    match (broken, way) {
        (true, 0..=2) => initial[random.below(8)] ^= 1 << random.below(8),
        (true, 3) => initial[random.below(8)] ^= 1 + random.below(255) as u8,
        _ => {}
    }
    let mut wrapped = wrapped(boxes, schedule, initial, key_data);
    match (broken, way) {
        (true, 4..=6) => wrapped[random.below(key_data.len() + 8)] ^= 1 << random.below(8),
        (true, 7) => wrapped = content(random, key_data.len() + 8),
        _ => {}
    }
    wrapped
}
