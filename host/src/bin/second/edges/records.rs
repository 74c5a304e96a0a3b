//! Records of both directions.

use super::keys::{Key, KEYS};
use super::{difference, edge, Edge};
use crate::masked::{of_one, PUBLISHED};
use slipgrease::calls;

/// Lent are a schedule, a block, masks, offsets, a step and the record.
pub type Call = fn(&[u8], &[u8], &[u8], &[u8], u8, &mut [u8]) -> u8;

/// A call that records a masked run, and what its record is like.
pub struct Recorded {
    direction: &'static str,
    pub call: Call,
    /// How long it is with keys of 16, 24 and 32 bytes.
    pub lengths: [usize; 3],
    /// The state that the boxes of round 0 take, and how many states a round has.
    first_taken: usize,
    round: usize,
}

pub const ENCRYPTION: Recorded =
    Recorded { direction: "encrypting", call: calls::record_masked, lengths: [816, 976, 1136], first_taken: 1, round: 5 };
pub const DECRYPTION: Recorded = Recorded {
    direction: "decrypting",
    call: calls::record_masked_decryption,
    lengths: [976, 1168, 1360],
    first_taken: 3,
    round: 6,
};

impl Recorded {
    /// The record of one block with a 32-byte key, which masks 00 do not cover.
    pub fn bytes(&self, masks: &[u8; 16], offsets: &[u8; 16], step: u8) -> Vec<u8> {
        self.with_key(&KEYS[2], masks, offsets, step)
    }

    /// The same with any key.
    pub fn with_key(&self, key: &Key, masks: &[u8; 16], offsets: &[u8; 16], step: u8) -> Vec<u8> {
        let (mut w, mut states) = (vec![0; key.schedule], vec![2; self.lengths[key.place]]);
        let _ = calls::expand_key(&vec![5; key.bytes], &mut w);
        (self.call)(&w, &[6; 16], masks, offsets, step, &mut states);
        states
    }

    /// In the rounds of a run: where what a box gives, xored with what the next one called takes, is the xor of the two bare bytes.
    fn left_bare(&self, key: &Key, order: &[usize; 16], offsets: &[u8; 16], step: u8) -> u16 {
        let [plain, masked] = [&[0; 16], &PUBLISHED].map(|masks| self.with_key(key, masks, offsets, step));
        let taken = (0..key.rounds).map(|round| 16 * (self.first_taken + self.round * round));
        let bare = taken.map(|taken| {
            let between = |record: &[u8], pair: &[usize]| record[taken + 16 + pair[0]] ^ record[taken + pair[1]];
            order.windows(2).filter(|pair| between(&masked, pair) == between(&plain, pair)).count()
        });
        bare.sum::<usize>() as u16
    }

    /// The same at each single offset.
    fn pairs_left_bare(&self, key: &Key, order: &[usize; 16], step: u8) -> u16 {
        (0..16).map(|offset| self.left_bare(key, order, &of_one(offset), step)).sum()
    }
}

/// Checked are: offset, step, record. That of one direction is no record of the other.
pub fn refused() -> Vec<Edge> {
    let mut edges = Vec::new();
    for Recorded { direction, call, lengths: [.., length], .. } in [ENCRYPTION, DECRYPTION] {
        for (offset, step, length, expected) in [
            (15, 1, length, 0),
            (16, 1, length, 6),
            (0, 2, length - 1, 15),
            (16, 2, length - 1, 6),
            (0, 4, length - 1, 8),
            (0, 4, length, 0),
            (0, 4, length + 1, 8),
            (0, 4, 1136 + 1360 - length, 8),
        ] {
            let reply = call(&[0; 240], &[0; 16], &PUBLISHED, &[offset; 16], step, &mut vec![0; length]);
            edges.push(edge(format!("reply to offset {offset}, step {step}, record of {length}, {direction}"), reply, expected));
        }
    }
    edges
}

/// A decryption goes back through the states of the encryption; where either has nothing to do without masks, a state is
/// repeated. Keys and block are FIPS 197's, C.1 to C.3, whose states no step leaves as they are.
pub fn zero_masks() -> Vec<Edge> {
    KEYS.iter().flat_map(zero_masks_with).collect()
}

fn zero_masks_with(key: &Key) -> Vec<Edge> {
    let (block, mut sealed): ([u8; 16], [u8; 16]) = (std::array::from_fn(|i| 0x11 * i as u8), [0; 16]);
    let [there_length, back_length] = [ENCRYPTION, DECRYPTION].map(|recorded| recorded.lengths[key.place]);
    let (w, mut plain, mut there, mut back) = (key.rising(), vec![1; there_length], vec![2; there_length], vec![3; back_length]);
    let _ = calls::record_plain(&w, &block, &mut plain);
    let recorded = calls::record_masked(&w, &block, &[0; 16], &[5; 16], 1, &mut there);
    let _ = calls::encrypt(&w, &block, &mut sealed);
    let recorded_back = calls::record_masked_decryption(&w, &sealed, &[0; 16], &[5; 16], 1, &mut back);
    let different = |record: &[u8]| {
        let mut states: Vec<Vec<u8>> = record.chunks(16).map(<[u8]>::to_vec).collect();
        states.dedup();
        states
    };
    let (from_the_end, opened) = (different(&plain).into_iter().rev().collect::<Vec<_>>(), different(&back));
    vec![
        edge(format!("reply to masks all 00, recorded, {}-byte key", key.bytes), recorded, 0),
        edge("bytes in which that record is not the plain one", difference(&plain, &there), 0),
        edge("reply to the same, recorded decrypting", recorded_back, 0),
        edge("states of that record, without those that are repeated", opened.len() as u16, 1 + 4 * key.rounds as u16),
        edge("bytes in which they are not the plain ones from the end", difference(&from_the_end.concat(), &opened.concat()), 0),
    ]
}

/// There are sixteen single offsets, so many rounds and fifteen pairs of neighbours in a round. An offset for each byte can leave
/// all of these bare, with any step: where each is a step further on than that of the box called before.
pub fn box_order() -> Vec<Edge> {
    let both = |key| [ENCRYPTION, DECRYPTION].map(|recorded| box_order_of(&recorded, key));
    KEYS.iter().flat_map(both).flatten().collect()
}

fn box_order_of(recorded: &Recorded, key: &Key) -> Vec<Edge> {
    let even_first: [usize; 16] = std::array::from_fn(|k| 2 * k % 16 + k / 8);
    let natural: [usize; 16] = std::array::from_fn(|k| k);
    let pairs = 15 * key.rounds as u16;
    let other_steps: u16 = (4..16).map(|step| recorded.pairs_left_bare(key, &even_first, step)).sum();
    let following = |step: usize| {
        let mut offsets = [0; 16];
        even_first.iter().enumerate().for_each(|(k, &byte)| offsets[byte] = (step * k % 16) as u8);
        recorded.left_bare(key, &even_first, &offsets, step as u8)
    };
    vec![
        edge(
            format!("pairs left bare {}, {}-byte key, even boxes first", recorded.direction, key.bytes),
            recorded.pairs_left_bare(key, &even_first, 1),
            0,
        ),
        edge("the same, boxes in natural order", recorded.pairs_left_bare(key, &natural, 1), 16 * pairs),
        edge("the same, even first, steps 4 to 15", other_steps, 0),
        edge("the same, offsets that follow the boxes", following(1), pairs),
        edge("the same with step 5", following(5), pairs),
    ]
}
