//! The calls that take an offset for each byte, compared on every number of them, and on every value at every byte.

use crate::cases::draw;
use crate::compare::Trial;
use crate::lent::{Buffer, Lent};
use crate::masked::of_one;
use crate::random::Random;
use crate::replies::{takes_byte_offsets, Cause};

/// Beside each up to 40: those of other buffers, and 272 and 65,552, which are 16 in their lowest eight and sixteen bits.
const LENGTHS: [usize; 9] = [64, 176, 188, 208, 240, 256, 272, 1136, 65_552];

/// Whether the call takes them, and so has been compared.
pub fn compare(trial: &mut Trial, random: &mut Random) -> bool {
    if !takes_byte_offsets(trial.call.refusals) {
        return false;
    }
    lengths(trial, random);
    places(trial, random);
    neighbours(trial, random);
    true
}

/// All other causes of a refusal.
fn others(trial: &Trial) -> impl Iterator<Item = Cause> {
    let refusals: &'static [Cause] = trial.call.refusals;
    refusals.iter().copied().filter(|cause| !matches!(cause, Cause::ByteOffset | Cause::ByteOffsetCount))
}

/// A case with one other cause of a refusal, or with none.
fn drawn(trial: &Trial, random: &mut Random, cause: Option<Cause>) -> Lent {
    let broken: Vec<Cause> = cause.into_iter().collect();
    draw(random, trial.boxes, trial.call.refusals, &broken)
}

/// Each length by itself and together with each other cause of a refusal, with offsets that are taken and with any bytes.
fn lengths(trial: &mut Trial, random: &mut Random) {
    for length in (0..=40).chain(LENGTHS) {
        for cause in std::iter::once(None).chain(others(trial).map(Some)) {
            let small: Vec<u8> = random.bytes(length).iter().map(|byte| byte % 16).collect();
            for byte_offsets in [Buffer::new(random, &small), Buffer::any(random, length)] {
                let lent = drawn(trial, random, cause);
                trial.case(random, Lent { byte_offsets, ..lent });
            }
        }
    }
}

/// Each value at each byte; where it is refused, one of them together with each other cause.
fn places(trial: &mut Trial, random: &mut Random) {
    for (place, offset) in (0..16).flat_map(|place| (0..=255).map(move |offset| (place, offset))) {
        let mut lent = drawn(trial, random, None);
        lent.byte_offsets.lent_mut()[place] = offset;
        trial.case(random, lent);
    }
    for place in 0..16 {
        for cause in others(trial) {
            let mut lent = drawn(trial, random, Some(cause));
            lent.byte_offsets.lent_mut()[place] = 16 + random.below(240) as u8;
            trial.case(random, lent);
        }
    }
}

/// Each that differs in one byte from those of one offset: all sixteen labels at all bytes, 0 further on being these themselves.
fn neighbours(trial: &mut Trial, random: &mut Random) {
    for (place, further) in (0..16).flat_map(|place| (0..16).map(move |further| (place, further))) {
        let mut offsets = of_one(random.below(16) as u8);
        offsets[place] = (offsets[place] + further) % 16;
        let mut lent = drawn(trial, random, None);
        lent.byte_offsets.lent_mut().copy_from_slice(&offsets);
        trial.case(random, lent);
    }
}
