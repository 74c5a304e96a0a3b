//! The mask sheet, the fitness of masks and the counts of their report.

use super::{write, Call};
use crate::answer::{number, packed};
use crate::counts::{count, Counted};
use crate::replies::Cause::*;
use crate::sheet;
use slipgrease::calls;

pub const CALLS: &[Call] = &[
    Call {
        name: "read_sheet",
        method: "sixteen bytes of it, step",
        refusals: &[SheetHead, Mark, Version, SheetLength, SheetStep, Masks],
        library: |l| packed(calls::read_sheet(l.sheet.lent(), l.masks.lent_mut())),
        reference: |_, l| {
            write(&mut l.masks, &l.sheet.lent()[5..21]);
            sheet::step(l.sheet.lent())
        },
    },
    Call {
        name: "write_sheet",
        method: "mark, version, masks, step",
        refusals: &[Step, BlankLength, Masks],
        library: |l| number(calls::write_sheet(l.masks.lent(), l.step, l.blank.lent_mut())),
        reference: |_, l| write(&mut l.blank, &sheet::written(l.masks.lent(), l.step)),
    },
    Call {
        name: "fitness",
        method: "each pattern by itself",
        refusals: &[Masks],
        library: |l| packed(calls::fitness(l.masks.lent())),
        reference: |_, l| sheet::fitness(l.masks.lent()),
    },
    Call {
        name: "mask_count",
        method: "at each offset, row by row",
        refusals: &[Masks],
        library: |l| {
            let Counted { row, byte, bits: [low, middle, high], pattern } = l.counted;
            packed(calls::mask_count(l.masks.lent(), row, byte, low, middle, high, pattern))
        },
        reference: |_, l| count(l.masks.sixteen(), l.counted, usize::from(l.round), l.step),
    },
];
