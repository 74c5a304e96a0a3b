//! Blocks that early modules stored in form 1, with the mask after their last round still on them.

use super::{difference, edge, Edge};
use crate::masked::PUBLISHED;
use slipgrease::calls;

/// Checked are: input, output, offset.
pub fn refused() -> Vec<Edge> {
    let mut edges = Vec::new();
    for (input, output, offset, expected) in [
        (16, 16, 0, 0),
        (16, 16, 15, 0),
        (16, 16, 16, 6),
        (16, 16, 255, 6),
        (15, 16, 0, 3),
        (17, 16, 0, 3),
        (0, 16, 0, 3),
        (32, 32, 0, 3),
        (16, 15, 0, 4),
        (16, 17, 0, 4),
        (16, 0, 0, 4),
        (15, 15, 16, 3),
        (16, 15, 16, 4),
        (15, 16, 16, 3),
    ] {
        let mut kept = vec![0x55; output];
        let reply = calls::convert(&vec![0; input], &mut kept, offset);
        edges.push(edge(format!("reply to {input} bytes converted to {output}, offset {offset}"), reply, expected));
        if expected != 0 {
            edges.push(edge("bytes that are written then", difference(&kept, &vec![0x55; output]), 0));
        }
    }
    edges
}

/// Zeros show the mask that is taken off. M12, M13 and M14 are c6, c9 and f0.
pub fn converted() -> Vec<Edge> {
    let shown = |offset: u8| {
        let mut mask = [1; 16];
        let _ = calls::convert(&[0; 16], &mut mask, offset);
        mask
    };
    vec![
        edge("mask taken off at offset 0, byte 0, label 14", shown(0)[0], 0xf0),
        edge("mask taken off at offset 0, byte 15, label 29", shown(0)[15], 0xc9),
        edge("mask taken off at offset 14, byte 0, label 28", shown(14)[0], 0xc6),
        edge("mask taken off at offset 15, byte 1, label 30", shown(15)[1], 0xf0),
        edge("bytes of it at offset 2 that are not those published", difference(&shown(2), &PUBLISHED), 0),
    ]
}
