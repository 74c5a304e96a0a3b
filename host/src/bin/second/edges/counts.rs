//! The counts of a mask table: rows are 1 to 7, bytes 0 to 15, bits rise and are 0 to 7, patterns are 0 to 7; beside these, and with a
//! refusal, the count is 0.

use super::{edge, Edge};
use crate::masked::PUBLISHED;
use slipgrease::calls;

fn count(masks: &[u8], [row, byte, low, middle, high, pattern]: [u8; 6]) -> u16 {
    calls::mask_count(masks, row, byte, low, middle, high, pattern)
}

/// The published masks are fit, so each count is 2 but in row 5, where request 11 has a 3.
pub fn inside_and_outside() -> Vec<Edge> {
    let mut edges = Vec::new();
    for (counted, expected) in [
        ([0, 0, 5, 6, 7, 7], 0),
        ([1, 0, 5, 6, 7, 7], 2),
        ([2, 0, 5, 6, 7, 7], 2),
        ([5, 0, 5, 6, 7, 7], 3),
        ([7, 0, 5, 6, 7, 7], 2),
        ([8, 0, 5, 6, 7, 7], 0),
        ([2, 15, 5, 6, 7, 7], 2),
        ([2, 16, 5, 6, 7, 7], 0),
        ([2, 0, 5, 6, 8, 7], 0),
        ([2, 0, 5, 6, 8, 3], 0),
        ([2, 0, 6, 6, 7, 7], 0),
        ([2, 0, 5, 7, 7, 7], 0),
        ([2, 0, 6, 5, 7, 7], 0),
        ([2, 0, 7, 6, 5, 7], 0),
        ([2, 0, 5, 6, 7, 0], 2),
        ([2, 0, 5, 6, 7, 8], 0),
        ([255, 255, 5, 6, 255, 255], 0),
    ] {
        let [row, byte, x, y, z, pattern] = counted;
        let name = format!("count in row {row}, byte {byte}, bits {x} {y} {z}, pattern {pattern}");
        edges.push(edge(name, count(&PUBLISHED, counted), expected));
    }
    edges
}

/// Of 00 to 0f eight are odd, and none has a high bit; MixColumns leaves sixteen masks that are the same.
pub fn by_hand() -> Vec<Edge> {
    let rising: [u8; 16] = std::array::from_fn(|i| i as u8);
    vec![
        edge("count of masks 00 to 0f with bit 0 alone of 0 4 5", count(&rising, [2, 3, 0, 4, 5, 0b001]), 8),
        edge("with bit 5 alone", count(&rising, [2, 3, 0, 4, 5, 0b100]), 0),
        edge("with bits 1 and 3, of 1 2 3", count(&rising, [4, 9, 1, 2, 3, 0b101]), 2),
        edge("count of masks all a0 with bits 5 and 7, row 5", count(&[0xa0; 16], [5, 12, 5, 6, 7, 0b101]), 16),
    ]
}

pub fn refused() -> Vec<Edge> {
    let mut edges = Vec::new();
    for (length, number) in [(0, 5), (15, 5), (16, 0), (17, 5)] {
        let masks: Vec<u8> = PUBLISHED.into_iter().cycle().take(length).collect();
        let answer = count(&masks, [2, 0, 5, 6, 7, 7]);
        edges.push(edge(format!("reply to the count of {length} masks"), answer >> 8, number));
        edges.push(edge("count beside it", answer & 0xff, if number == 0 { 2 } else { 0 }));
    }
    edges
}
