//! Every public call that is lent buffers: the refusals that it can meet in their order, how the library is called, and what
//! it should do.

mod decryption;
mod encryption;
mod packets;
mod plain;
mod sheets;
mod stored;
mod wraps;

use crate::answer::Answer;
use crate::cipher::{add, record, rounds, Boxes, Direction, State};
use crate::lent::{Buffer, Lent};
use crate::masked::{masks_at_points, of_one, Masking};
use crate::replies::Cause;

/// The reference is asked only where no refusal is met. It gives the value, and writes what is to be written.
pub struct Call {
    pub name: &'static str,
    pub method: &'static str,
    pub refusals: &'static [Cause],
    pub library: fn(&mut Lent) -> Answer,
    pub reference: fn(&Boxes, &mut Lent) -> u8,
}

pub fn calls() -> impl Iterator<Item = &'static Call> {
    let kinds = [plain::CALLS, encryption::CALLS, decryption::CALLS, sheets::CALLS, stored::CALLS, wraps::CALLS, packets::CALLS];
    kinds.into_iter().flatten()
}

fn write(target: &mut Buffer, bytes: &[u8]) -> u8 {
    target.lent_mut().copy_from_slice(bytes);
    0
}

/// The block that CIPHER or INVCIPHER makes, and so any masked run.
fn plain_block(made: fn(&Boxes, &[u8], &State) -> State, boxes: &Boxes, lent: &mut Lent) -> u8 {
    let block = made(boxes, lent.schedule.lent(), &lent.input.sixteen());
    write(&mut lent.output, &block)
}

fn plain_states(direction: Direction, boxes: &Boxes, lent: &Lent) -> Vec<State> {
    record(direction, boxes, lent.schedule.lent(), &lent.input.sixteen())
}

fn masked_states(direction: Direction, masking: &Masking, boxes: &Boxes, lent: &Lent) -> Vec<State> {
    masking.run(direction, boxes, lent.schedule.lent(), &lent.input.sixteen())
}

/// The block that a masked run ends with.
fn masked_block(direction: Direction, masking: fn(&Lent) -> Masking, boxes: &Boxes, lent: &mut Lent) -> u8 {
    let states = masked_states(direction, &masking(lent), boxes, lent);
    write(&mut lent.output, states.last().expect("a run has states"))
}

/// The states of a masked run with the lent masks.
fn masked_record(direction: Direction, boxes: &Boxes, lent: &mut Lent) -> u8 {
    let states = masked_states(direction, &Masking::lent(lent), boxes, lent);
    write(&mut lent.states, &states.concat())
}

/// The states of a plain run, each under the mask that lies at its point; mask gives that after so many rounds.
fn covered_record(direction: Direction, mask: impl Fn(usize) -> State, boxes: &Boxes, lent: &mut Lent) -> u8 {
    let masks = masks_at_points(direction, rounds(lent.schedule.lent()), mask);
    let covered =
        plain_states(direction, boxes, lent).iter().zip(&masks).map(|(state, mask)| add(state, mask)).collect::<Vec<_>>();
    write(&mut lent.states, &covered.concat())
}

/// The same with an offset for each byte.
fn covered_by_bytes(direction: Direction, boxes: &Boxes, lent: &mut Lent) -> u8 {
    let masking = Masking::lent(lent);
    covered_record(direction, |rounds| masking.mask(rounds), boxes, lent)
}

/// The same with one offset: the mask is then the table of masks, turned so far.
fn covered_by_one(direction: Direction, boxes: &Boxes, lent: &mut Lent) -> u8 {
    let (masks, offset, step) = (lent.masks.sixteen(), usize::from(lent.offset), usize::from(lent.step));
    let turned = |rounds: usize| {
        let mut mask = masks;
        mask.rotate_left((offset + step * rounds) % 16);
        mask
    };
    covered_record(direction, turned, boxes, lent)
}

/// What a call is lent of one offset: that of each byte, or sixteen times one that is too great.
fn lent_of_one(offset: u8) -> [u8; 16] {
    match offset {
        0..=15 => of_one(offset),
        _ => [offset; 16],
    }
}
