//! Offsets, one for each byte of a block: how many there are, which are refused, and the masks that the others bring.

use super::records::{DECRYPTION, ENCRYPTION};
use super::{difference, edge, Edge};
use crate::masked::{of_one, PUBLISHED};
use slipgrease::calls;

/// Those of no single offset.
const MIXED: [u8; 16] = [3, 9, 0, 15, 7, 7, 12, 4, 1, 10, 2, 8, 5, 14, 6, 11];

/// Lent are offsets, a step and a table of masks. Given are the reply, and how many bytes were written.
type Call = fn(&[u8], u8, &[u8]) -> (u8, u16);

/// Each with all else as it should be.
const CALLS: [(&str, Call); 6] = [
    ("encrypt_published", |o, d, _| told(16, |to| calls::encrypt_published(&[0; 240], &[0; 16], to, o, d, 0))),
    ("encrypt_masked", |o, d, m| told(16, |to| calls::encrypt_masked(&[0; 240], &[0; 16], to, m, o, d, 0))),
    ("record_masked", |o, d, m| told(1136, |to| calls::record_masked(&[0; 240], &[0; 16], m, o, d, to))),
    ("decrypt_published", |o, d, _| told(16, |to| calls::decrypt_published(&[0; 240], &[0; 16], to, o, d))),
    ("decrypt_masked", |o, d, m| told(16, |to| calls::decrypt_masked(&[0; 240], &[0; 16], to, m, o, d))),
    ("record_masked_decryption", |o, d, m| told(1360, |to| calls::record_masked_decryption(&[0; 240], &[0; 16], m, o, d, to))),
];

/// The reply of a call, and in how many of so many bytes it has written something.
fn told(length: usize, call: impl Fn(&mut [u8]) -> u8) -> (u8, u16) {
    let mut to = vec![0x55; length];
    (call(&mut to), difference(&to, &vec![0x55; length]))
}

/// Checked are, behind the table of masks and before the step: their number, and then each of them.
pub fn refused() -> Vec<Edge> {
    let with = |place: usize, offset: u8| {
        let mut offsets = MIXED;
        offsets[place] = offset;
        offsets.to_vec()
    };
    let cases = [
        ("no offset", vec![], 1, 24),
        ("one offset", vec![3], 1, 24),
        ("15 offsets", MIXED[1..].to_vec(), 1, 24),
        ("17 offsets", [&MIXED[..], &[0]].concat(), 1, 24),
        ("32 offsets", MIXED.repeat(2), 1, 24),
        ("a mebibyte of offsets", vec![0; 1 << 20], 1, 24),
        ("15 offsets 16, step 2", vec![16; 15], 2, 24),
        ("offset 15 for byte 0", with(0, 15), 1, 0),
        ("offset 16 for byte 0", with(0, 16), 1, 6),
        ("offset 16 for byte 15", with(15, 16), 1, 6),
        ("offset 255 for byte 7, step 2", with(7, 255), 2, 6),
        ("16 offsets, step 2", MIXED.to_vec(), 2, 15),
        ("16 offsets, step 4", MIXED.to_vec(), 4, 0),
    ];
    let mut edges = Vec::new();
    for (name, call) in CALLS {
        let mut written = 0;
        for (what, offsets, step, expected) in &cases {
            let (reply, changed) = call(offsets, *step, &PUBLISHED);
            edges.push(edge(format!("{name}, {what}"), reply, *expected));
            written += if *expected == 0 { 0 } else { changed };
        }
        edges.push(edge("bytes that are written by those that are refused", written, 0));
        if !name.ends_with("published") {
            edges.push(edge(format!("{name}, no offset, 15 masks"), call(&[], 2, &PUBLISHED[1..]).0, 5));
        }
    }
    edges.push(edge("fault that reply 24 is, the caller's", calls::sort_reply(24), 1));
    edges
}

/// At step 5. M7, M9, M12, M13, M14 and M15 are 6a, 9a, c6, c9, f0 and ff. ShiftRows takes what is byte 1 from byte 5.
pub fn masks() -> Vec<Edge> {
    let [forth, back] = [ENCRYPTION, DECRYPTION].map(|recorded| {
        let (plain, masked) = (recorded.bytes(&[0; 16], &MIXED, 5), recorded.bytes(&PUBLISHED, &MIXED, 5));
        move |point: usize, byte: usize| plain[16 * point + byte] ^ masked[16 * point + byte]
    });
    vec![
        edge("mask at mixed offsets after key 0, byte 1, label 9", forth(1, 1), 0x9a),
        edge("the same after boxes 0, byte 1, label 14", forth(2, 1), 0xf0),
        edge("the same after ShiftRows 0, byte 1, label 12 of byte 5", forth(3, 1), 0xc6),
        edge("the same after compensation 0, byte 1, label 14", forth(5, 1), 0xf0),
        edge("the same after boxes 13, byte 1, label 79", forth(67, 1), 0xff),
        edge("the same after key 14, byte 1, label 77 of byte 5", forth(69, 1), 0xc9),
        edge("the same at the end, byte 1, no mask", forth(70, 1), 0x00),
        edge("the same after key 14, byte 1, label 9, decrypting", back(1, 1), 0x9a),
        edge("the same after InvShiftRows 0, byte 5, label 9 of byte 1", back(2, 5), 0x9a),
        edge("the same after its correction, byte 5, label 7", back(3, 5), 0x6a),
        edge("the same after boxes 0, byte 5, label 12", back(4, 5), 0xc6),
        edge("the same after key 0, byte 5, label 77", back(83, 5), 0xc9),
        edge("the same at the end, byte 5, no mask", back(84, 5), 0x00),
    ]
}

/// What takes one offset makes what sixteen make, from it on: many blocks, and the converter, which takes off the mask after
/// fourteen rounds; a recorded run has that on its state 67.
pub fn of_one_offset() -> Vec<Edge> {
    let w = [7; 240];
    let (mut blocks, mut masks) = (0, 0);
    for offset in 0..16 {
        let (mut many, mut one, mut mask) = ([1; 16], [2; 16], [3; 16]);
        let _ = calls::encrypt_blocks(&w, &[5; 16], &mut many, &[offset], 1, 0);
        let _ = calls::encrypt_published(&w, &[5; 16], &mut one, &of_one(offset), 1, 0);
        blocks += difference(&many, &one);
        let (plain, masked) = (ENCRYPTION.bytes(&[0; 16], &MIXED, 1), ENCRYPTION.bytes(&PUBLISHED, &of_one(offset), 1));
        let _ = calls::convert(&[0; 16], &mut mask, offset);
        masks += (0..16).filter(|&i| plain[16 * 67 + i] ^ masked[16 * 67 + i] != mask[i]).count() as u16;
    }
    vec![
        edge("bytes of a block at one offset that sixteen make otherwise", blocks, 0),
        edge("bytes of a stored mask that sixteen make otherwise", masks, 0),
    ]
}
