//! Steps: which are refused, and the masks that the others bring.

use super::records::{Recorded, DECRYPTION, ENCRYPTION};
use super::{edge, Edge};
use crate::masked::{of_one, PUBLISHED};
use slipgrease::calls;

/// 0, 2, 3 and above 15, behind the offset, before the form.
pub fn refused() -> Vec<Edge> {
    let (w, block) = ([0; 240], [0; 16]);
    let mut edges = Vec::new();
    for (offset, step, form, expected) in [
        (0, 0, 0, 15),
        (0, 1, 0, 0),
        (0, 2, 0, 15),
        (0, 3, 0, 15),
        (0, 4, 0, 0),
        (0, 15, 0, 0),
        (0, 16, 0, 15),
        (0, 17, 0, 15),
        (0, 255, 0, 15),
        (16, 2, 0, 6),
        (0, 2, 1, 15),
        (16, 2, 1, 6),
        (0, 4, 1, 7),
    ] {
        let name = |call: &str| format!("reply to offset {offset}, step {step}, form {form}, {call}");
        let published = calls::encrypt_published(&w, &block, &mut [0; 16], &[offset; 16], step, form);
        let masked = calls::encrypt_masked(&w, &block, &mut [0; 16], &PUBLISHED, &[offset; 16], step, form);
        let many = calls::encrypt_blocks(&w, &block, &mut [0; 16], &[offset], step, form);
        edges.push(edge(name("published masks"), published, expected));
        edges.push(edge(name("any masks"), masked, expected));
        edges.push(edge(name("many blocks"), many, expected));
        if form == 0 {
            let name = |call: &str| format!("reply to offset {offset}, step {step}, {call}, decrypting");
            let published = calls::decrypt_published(&w, &block, &mut [0; 16], &[offset; 16], step);
            let masked = calls::decrypt_masked(&w, &block, &mut [0; 16], &PUBLISHED, &[offset; 16], step);
            edges.push(edge(name("published masks"), published, expected));
            edges.push(edge(name("any masks"), masked, expected));
        }
    }
    edges.extend([
        edge("reply to step 2, no blocks", calls::encrypt_blocks(&w, &[], &mut [], &[], 2, 0), 15),
        edge("reply to step 2, no blocks and an offset 16", calls::encrypt_blocks(&w, &[], &mut [], &[16], 2, 1), 14),
        edge("fault that reply 15 is, the caller's", calls::sort_reply(15), 1),
    ]);
    edges
}

/// At one offset positions count by one, and rounds by the step. M0, M4 .. M6 are 00, 53, 5c, 65.
pub fn masks() -> Vec<Edge> {
    let covers = |recorded: &Recorded| {
        let (plain, masked) = (recorded.bytes(&[0; 16], &of_one(0), 5), recorded.bytes(&PUBLISHED, &of_one(0), 5));
        move |point: usize, byte: usize| plain[16 * point + byte] ^ masked[16 * point + byte]
    };
    let (cover, cover_back) = (covers(&ENCRYPTION), covers(&DECRYPTION));
    vec![
        edge("mask at step 5 after key 0, byte 0, label 0", cover(1, 0), 0x00),
        edge("mask at step 5 after key 0, byte 4, label 4", cover(1, 4), 0x53),
        edge("mask at step 5 after boxes 0, byte 0, label 5", cover(2, 0), 0x5c),
        edge("mask at step 5 after compensation 0, byte 0, label 5", cover(5, 0), 0x5c),
        edge("mask at step 5 after compensation 0, byte 15, label 20", cover(5, 15), 0x53),
        edge("mask at step 5 after boxes 13, byte 0, label 70", cover(67, 0), 0x65),
        edge("mask at step 5 after key 14, byte 4, label 4, decrypting", cover_back(1, 4), 0x53),
        edge("the same after InvShiftRows 0, byte 8, label 8", cover_back(2, 8), 0x95),
        edge("the same after InvShiftRows 0, byte 5, label 1", cover_back(2, 5), 0x0f),
        edge("the same after its correction, byte 5, label 5", cover_back(3, 5), 0x5c),
        edge("the same after boxes 0, byte 0, label 5", cover_back(4, 0), 0x5c),
        edge("the same after key 13, byte 1, label 6", cover_back(5, 1), 0x65),
        edge("the same after the last correction of round 0, byte 15", cover_back(7, 15), 0x53),
        edge("the same after boxes 13, byte 0, label 70", cover_back(82, 0), 0x65),
        edge("the same after key 0, byte 15, label 85", cover_back(83, 15), 0x5c),
        edge("the same at the end, byte 15, no mask", cover_back(84, 15), 0x00),
    ]
}
