//! The calls that take a step, compared on every step from 0 to 255, and what is judged before and after it.

use crate::cases::draw;
use crate::compare::Trial;
use crate::lent::{Buffer, Lent};
use crate::masked::of_one;
use crate::random::Random;
use crate::replies::{takes_step, Cause};
use std::ops::RangeInclusive;

/// Whether the call has a step, and so has been compared.
pub fn compare(trial: &mut Trial, random: &mut Random) -> bool {
    let refusals = trial.call.refusals;
    if refusals.contains(&Cause::SheetStep) {
        sheets_read(trial, random);
    } else if refusals.contains(&Cause::BlankLength) {
        sheets_written(trial, random);
    } else if refusals.contains(&Cause::Step) {
        runs(trial, random);
    } else {
        return false;
    }
    true
}

/// Each step by itself and together with each other cause of a refusal, and where it is taken, at every offset.
fn runs(trial: &mut Trial, random: &mut Random) {
    let refusals = trial.call.refusals;
    for step in 0..=255 {
        let offsets = if takes_step(step) { 0..16 } else { 7..8 };
        for offset in offsets {
            let mut lent = draw(random, trial.boxes, refusals, &[]);
            lent.offsets.lent_mut().fill(offset);
            lent.byte_offsets.lent_mut().copy_from_slice(&of_one(offset));
            trial.case(random, Lent { offset, step, ..lent });
        }
        for &cause in refusals.iter().filter(|cause| **cause != Cause::Step) {
            let lent = draw(random, trial.boxes, refusals, &[cause]);
            trial.case(random, Lent { step, ..lent });
        }
    }
}

/// Lengths around both of a sheet, and around that of a mask table.
const SHEET_LENGTHS: RangeInclusive<usize> = 0..=23;
const MASKS_LENGTHS: [usize; 3] = [15, 16, 17];

/// Each step with every such length.
fn sheets_written(trial: &mut Trial, random: &mut Random) {
    for (step, length) in (0..=255).flat_map(|step| SHEET_LENGTHS.map(move |length| (step, length))) {
        for masks in MASKS_LENGTHS {
            let mut lent = draw(random, trial.boxes, trial.call.refusals, &[]);
            lent.step = step;
            lent.blank = Buffer::any(random, length);
            lent.masks = Buffer::any(random, masks);
            trial.case(random, lent);
        }
    }
}

/// Each such length with a right and a wrong mark, known and unknown versions and, where the sheet is long enough, every step.
fn sheets_read(trial: &mut Trial, random: &mut Random) {
    let versions = [[0, 0], [0, 1], [0, 2], [0, 3], [1, 1], [1, 2], [2, 0]];
    for (length, version) in SHEET_LENGTHS.flat_map(|length| versions.map(|version| (length, version))) {
        for step in if length > 21 { 0..=255 } else { 0..=0 } {
            for (mark, masks) in MASKS_LENGTHS.into_iter().flat_map(|masks| [(*b"MSK", masks), (*b"MSk", masks)]) {
                let mut sheet = [&mark[..], &version, &random.bytes(16), &[step, random.byte()]].concat();
                sheet.truncate(length);
                let mut lent = draw(random, trial.boxes, trial.call.refusals, &[]);
                lent.sheet = Buffer::new(random, &sheet);
                lent.masks = Buffer::any(random, masks);
                trial.case(random, lent);
            }
        }
    }
}
