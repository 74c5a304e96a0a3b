//! The masked run of document 002, its last box label and its last constant as the scope corrects them, and the masked decryption.

use crate::cipher::{
    add, add_round_key, inv_mix_columns, inv_shift_rows, mix_columns, rounds, shift_rows, Boxes, Direction, State,
};
use crate::lent::Lent;
use std::array::from_fn;

/// The sixteen masks that document 002 publishes.
pub const PUBLISHED: [u8; 16] = [0x00, 0x0f, 0x36, 0x39, 0x53, 0x5c, 0x65, 0x6a, 0x95, 0x9a, 0xa3, 0xac, 0xc6, 0xc9, 0xf0, 0xff];

/// The offset of each byte where there is one for all: from byte to byte the label is one further on.
pub fn of_one(offset: u8) -> [u8; 16] {
    from_fn(|i| ((usize::from(offset) + i) % 16) as u8)
}

/// What a masked run is run with: masks, an offset for each byte, and a step. Labels are counted modulo 16, and advance by the step
/// from round to round.
pub struct Masking {
    pub masks: [u8; 16],
    pub offsets: [u8; 16],
    pub step: u8,
}

impl Masking {
    /// With the published masks, at the offsets and the step that a call is lent.
    pub fn published(lent: &Lent) -> Masking {
        Masking { masks: PUBLISHED, offsets: lent.byte_offsets.sixteen(), step: lent.step }
    }

    /// The same with the masks that it is lent.
    pub fn lent(lent: &Lent) -> Masking {
        Masking { masks: lent.masks.sixteen(), ..Masking::published(lent) }
    }

    /// The label of byte i after so many rounds.
    fn label(&self, i: usize, rounds: usize) -> usize {
        usize::from(self.offsets[i]) + usize::from(self.step) * rounds
    }

    fn mask_byte(&self, label: usize) -> u8 {
        self.masks[label % 16]
    }

    /// The mask after so many rounds, Mask(o + step * rounds).
    pub fn mask(&self, rounds: usize) -> State {
        from_fn(|i| self.mask_byte(self.label(i, rounds)))
    }

    /// What puts the mask after so many rounds back where a transformation has moved it: the xor of both.
    fn constant(&self, rounds: usize, moved: impl Fn(&State) -> State) -> State {
        let mask = self.mask(rounds);
        add(&mask, &moved(&mask))
    }

    /// Box o(i) + step * round on byte i, over S or its inverse: it takes that mask, and gives the one a step further on.
    fn boxes(&self, bare: impl Fn(u8) -> u8, s: &State, round: usize) -> State {
        from_fn(|i| {
            let [taken, given] = [round, round + 1].map(|rounds| self.mask_byte(self.label(i, rounds)));
            bare(s[i] ^ taken) ^ given
        })
    }

    /// The states of a masked run, each made from the one before.
    pub fn run(&self, direction: Direction, boxes: &Boxes, schedule: &[u8], block: &State) -> Vec<State> {
        match direction {
            Direction::Encryption => self.encryption(boxes, schedule, block),
            Direction::Decryption => self.decryption(boxes, schedule, block),
        }
    }

    fn encryption(&self, boxes: &Boxes, schedule: &[u8], block: &State) -> Vec<State> {
        let last = rounds(schedule);
        let mut s = add(block, &self.mask(0));
        let mut states = vec![s];
        for round in 0..last {
            let keyed = add_round_key(&s, schedule, round);
            let boxed = self.boxes(|x| boxes.s(x), &keyed, round);
            let shifted = shift_rows(&boxed);
            let (next, constant) = match 1 + round < last {
                true => (mix_columns(&shifted), self.constant(1 + round, |mask| mix_columns(&shift_rows(mask)))),
                false => (add_round_key(&shifted, schedule, last), shift_rows(&self.mask(last))),
            };
            s = add(&next, &constant);
            states.extend([keyed, boxed, shifted, next, s]);
        }
        states
    }

    fn decryption(&self, boxes: &Boxes, schedule: &[u8], block: &State) -> Vec<State> {
        let last = rounds(schedule);
        let covered = add(block, &self.mask(0));
        let mut s = add_round_key(&covered, schedule, last);
        let mut states = vec![covered, s];
        for round in 0..last {
            let unshifted = inv_shift_rows(&s);
            let corrected = add(&unshifted, &self.constant(round, inv_shift_rows));
            let unboxed = self.boxes(|x| boxes.inv_s(x), &corrected, round);
            let keyed = add_round_key(&unboxed, schedule, last - 1 - round);
            states.extend([unshifted, corrected, unboxed, keyed]);
            if 1 + round < last {
                let unmixed = inv_mix_columns(&keyed);
                s = add(&unmixed, &self.constant(1 + round, inv_mix_columns));
                states.extend([unmixed, s]);
            } else {
                states.push(add(&keyed, &self.mask(last)));
            }
        }
        states
    }
}

/// The mask that lies at each point of a run of so many rounds, row by row as the tables have them; mask gives that after some of
/// them.
pub fn masks_at_points(direction: Direction, rounds: usize, mask: impl Fn(usize) -> State) -> Vec<State> {
    match direction {
        Direction::Encryption => masks_encrypting(rounds, mask),
        Direction::Decryption => masks_decrypting(rounds, mask),
    }
}

/// As the scope's table has them.
fn masks_encrypting(rounds: usize, mask: impl Fn(usize) -> State) -> Vec<State> {
    let mut masks = vec![mask(0)];
    for round in 0..rounds - 1 {
        let after = mask(round + 1);
        let shifted = shift_rows(&after);
        masks.extend([mask(round), after, shifted, mix_columns(&shifted), after]);
    }
    let after = mask(rounds);
    let shifted = shift_rows(&after);
    masks.extend([mask(rounds - 1), after, shifted, shifted, [0; 16]]);
    masks
}

/// The boxes take the mask of their round and give that of the next; a mask that was moved is put back at the next point.
fn masks_decrypting(rounds: usize, mask: impl Fn(usize) -> State) -> Vec<State> {
    let mut masks = vec![mask(0), mask(0)];
    for round in 0..rounds {
        let (taken, given) = (mask(round), mask(round + 1));
        masks.extend([inv_shift_rows(&taken), taken, given, given]);
        match round + 1 < rounds {
            true => masks.extend([inv_mix_columns(&given), given]),
            false => masks.push([0; 16]),
        }
    }
    masks
}
