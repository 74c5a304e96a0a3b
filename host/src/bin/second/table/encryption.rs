//! The calls of the masked engine that encrypt.

use super::{covered_by_bytes, covered_by_one, lent_of_one, masked_block, masked_record, plain_block, write, Call};
use crate::answer::{number, Answer};
use crate::cipher::{encrypt, Direction::Encryption, State};
use crate::lent::Lent;
use crate::masked::{of_one, Masking, PUBLISHED};
use crate::replies::Cause::*;
use slipgrease::calls;

fn library_published(l: &mut Lent) -> Answer {
    number(calls::encrypt_published(
        l.schedule.lent(),
        l.input.lent(),
        l.output.lent_mut(),
        l.byte_offsets.lent(),
        l.step,
        l.form,
    ))
}

/// For each block of many what a run over it alone gives, one behind the other.
fn each(lent: &Lent, one: impl Fn(&Masking, &State) -> State) -> Vec<u8> {
    let blocks = lent.input.lent().chunks_exact(16).map(|block| block.try_into().expect("sixteen bytes"));
    let masking = |&offset: &u8| Masking { masks: PUBLISHED, offsets: of_one(offset), step: lent.step };
    blocks.zip(lent.offsets.lent().iter().map(masking)).flat_map(|(block, masking)| one(&masking, &block)).collect()
}

fn library_many(l: &mut Lent) -> Answer {
    number(calls::encrypt_blocks(l.schedule.lent(), l.input.lent(), l.output.lent_mut(), l.offsets.lent(), l.step, l.form))
}

fn library_masked(l: &mut Lent) -> Answer {
    let masks = l.masks.lent();
    number(calls::encrypt_masked(
        l.schedule.lent(),
        l.input.lent(),
        l.output.lent_mut(),
        masks,
        l.byte_offsets.lent(),
        l.step,
        l.form,
    ))
}

fn library_recorded_at_one(l: &mut Lent) -> Answer {
    let (masks, offsets) = (l.masks.lent(), lent_of_one(l.offset));
    number(calls::record_masked(l.schedule.lent(), l.input.lent(), masks, &offsets, l.step, l.states.lent_mut()))
}

fn library_recorded(l: &mut Lent) -> Answer {
    let masks = l.masks.lent();
    number(calls::record_masked(l.schedule.lent(), l.input.lent(), masks, l.byte_offsets.lent(), l.step, l.states.lent_mut()))
}

pub const CALLS: &[Call] = &[
    Call {
        name: "encrypt_published",
        method: "masked run",
        refusals: &[Schedule, Input, Output, ByteOffsetCount, ByteOffset, Step, Form],
        library: library_published,
        reference: |b, l| masked_block(Encryption, Masking::published, b, l),
    },
    Call {
        name: "encrypt_published",
        method: "CIPHER",
        refusals: &[Schedule, Input, Output, ByteOffsetCount, ByteOffset, Step, Form],
        library: library_published,
        reference: |b, l| plain_block(encrypt, b, l),
    },
    Call {
        name: "encrypt_blocks",
        method: "masked run of each block",
        refusals: &[Schedule, Blocks, Room, OffsetCount, AnyOffset, Step, Form],
        library: library_many,
        reference: |b, l| {
            let run = |masking: &Masking, block: &State| masking.run(Encryption, b, l.schedule.lent(), block);
            let blocks = each(l, |masking, block| *run(masking, block).last().expect("a run has states"));
            write(&mut l.output, &blocks)
        },
    },
    Call {
        name: "encrypt_blocks",
        method: "CIPHER of each block",
        refusals: &[Schedule, Blocks, Room, OffsetCount, AnyOffset, Step, Form],
        library: library_many,
        reference: |b, l| {
            let blocks = each(l, |_, block| encrypt(b, l.schedule.lent(), block));
            write(&mut l.output, &blocks)
        },
    },
    Call {
        name: "encrypt_masked",
        method: "masked run",
        refusals: &[Schedule, Input, Output, Masks, ByteOffsetCount, ByteOffset, Step, Form],
        library: library_masked,
        reference: |b, l| masked_block(Encryption, Masking::lent, b, l),
    },
    Call {
        name: "encrypt_masked",
        method: "CIPHER",
        refusals: &[Schedule, Input, Output, Masks, ByteOffsetCount, ByteOffset, Step, Form],
        library: library_masked,
        reference: |b, l| plain_block(encrypt, b, l),
    },
    Call {
        name: "record_masked",
        method: "masked run",
        refusals: &[Schedule, Input, Masks, ByteOffsetCount, ByteOffset, Step, States],
        library: library_recorded,
        reference: |b, l| masked_record(Encryption, b, l),
    },
    Call {
        name: "record_masked",
        method: "covered states of CIPHER",
        refusals: &[Schedule, Input, Masks, ByteOffsetCount, ByteOffset, Step, States],
        library: library_recorded,
        reference: |b, l| covered_by_bytes(Encryption, b, l),
    },
    Call {
        name: "record_masked",
        method: "one offset, the masks turned",
        refusals: &[Schedule, Input, Masks, Offset, Step, States],
        library: library_recorded_at_one,
        reference: |b, l| covered_by_one(Encryption, b, l),
    },
];
