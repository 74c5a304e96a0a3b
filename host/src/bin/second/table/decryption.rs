//! The calls of the masked engine that decrypt.

use super::{covered_by_bytes, covered_by_one, lent_of_one, masked_block, masked_record, plain_block, Call};
use crate::answer::{number, Answer};
use crate::cipher::{decrypt, Direction::Decryption};
use crate::lent::Lent;
use crate::masked::Masking;
use crate::replies::Cause::*;
use slipgrease::calls;

fn library_published(l: &mut Lent) -> Answer {
    number(calls::decrypt_published(l.schedule.lent(), l.input.lent(), l.output.lent_mut(), l.byte_offsets.lent(), l.step))
}

fn library_masked(l: &mut Lent) -> Answer {
    number(calls::decrypt_masked(
        l.schedule.lent(),
        l.input.lent(),
        l.output.lent_mut(),
        l.masks.lent(),
        l.byte_offsets.lent(),
        l.step,
    ))
}

fn library_recorded_at_one(l: &mut Lent) -> Answer {
    let (masks, offsets) = (l.masks.lent(), lent_of_one(l.offset));
    number(calls::record_masked_decryption(l.schedule.lent(), l.input.lent(), masks, &offsets, l.step, l.states.lent_mut()))
}

fn library_recorded(l: &mut Lent) -> Answer {
    let masks = l.masks.lent();
    number(calls::record_masked_decryption(
        l.schedule.lent(),
        l.input.lent(),
        masks,
        l.byte_offsets.lent(),
        l.step,
        l.states.lent_mut(),
    ))
}

pub const CALLS: &[Call] = &[
    Call {
        name: "decrypt_published",
        method: "masked run",
        refusals: &[Schedule, Input, Output, ByteOffsetCount, ByteOffset, Step],
        library: library_published,
        reference: |b, l| masked_block(Decryption, Masking::published, b, l),
    },
    Call {
        name: "decrypt_published",
        method: "INVCIPHER",
        refusals: &[Schedule, Input, Output, ByteOffsetCount, ByteOffset, Step],
        library: library_published,
        reference: |b, l| plain_block(decrypt, b, l),
    },
    Call {
        name: "decrypt_masked",
        method: "masked run",
        refusals: &[Schedule, Input, Output, Masks, ByteOffsetCount, ByteOffset, Step],
        library: library_masked,
        reference: |b, l| masked_block(Decryption, Masking::lent, b, l),
    },
    Call {
        name: "decrypt_masked",
        method: "INVCIPHER",
        refusals: &[Schedule, Input, Output, Masks, ByteOffsetCount, ByteOffset, Step],
        library: library_masked,
        reference: |b, l| plain_block(decrypt, b, l),
    },
    Call {
        name: "record_masked_decryption",
        method: "masked run",
        refusals: &[Schedule, Input, Masks, ByteOffsetCount, ByteOffset, Step, DecryptionStates],
        library: library_recorded,
        reference: |b, l| masked_record(Decryption, b, l),
    },
    Call {
        name: "record_masked_decryption",
        method: "covered states of INVCIPHER",
        refusals: &[Schedule, Input, Masks, ByteOffsetCount, ByteOffset, Step, DecryptionStates],
        library: library_recorded,
        reference: |b, l| covered_by_bytes(Decryption, b, l),
    },
    Call {
        name: "record_masked_decryption",
        method: "one offset, the masks turned",
        refusals: &[Schedule, Input, Masks, Offset, Step, DecryptionStates],
        library: library_recorded_at_one,
        reference: |b, l| covered_by_one(Decryption, b, l),
    },
];
