//! Keys of 16, 24 and 32 bytes: FIPS 197's examples of them, the lengths that go together, and the masks of their last rounds.

use super::records::{Call, Recorded, DECRYPTION, ENCRYPTION};
use super::{difference, edge, Edge};
use crate::masked::{of_one, PUBLISHED};
use slipgrease::calls;

/// How long a key is and its schedule, and for how many rounds; and which of the three it is.
pub struct Key {
    pub bytes: usize,
    pub schedule: usize,
    pub rounds: usize,
    pub place: usize,
}

pub const KEYS: [Key; 3] = [
    Key { bytes: 16, schedule: 176, rounds: 10, place: 0 },
    Key { bytes: 24, schedule: 208, rounds: 12, place: 1 },
    Key { bytes: 32, schedule: 240, rounds: 14, place: 2 },
];

impl Key {
    /// The schedule of the key 00 01 ..
    pub fn rising(&self) -> Vec<u8> {
        let (key, mut w): (Vec<u8>, Vec<u8>) = ((0..self.bytes as u8).collect(), vec![0; self.schedule]);
        let _ = calls::expand_key(&key, &mut w);
        w
    }
}

fn words(words: &[u32]) -> Vec<u8> {
    words.iter().flat_map(|word| word.to_be_bytes()).collect()
}

/// Each length about those of a key, with room for the schedule of each and for others. The key is judged first.
pub fn lengths() -> Vec<Edge> {
    let rooms = [176, 208, 240, 0, 175, 177, 192, 224, 241, 256];
    let (mut edges, mut written) = (Vec::new(), 0);
    for (key, replies) in [
        (0, [1; 10]),
        (8, [1; 10]),
        (15, [1; 10]),
        (16, [0, 2, 2, 2, 2, 2, 2, 2, 2, 2]),
        (17, [1; 10]),
        (20, [1; 10]),
        (23, [1; 10]),
        (24, [2, 0, 2, 2, 2, 2, 2, 2, 2, 2]),
        (25, [1; 10]),
        (28, [1; 10]),
        (31, [1; 10]),
        (32, [2, 2, 0, 2, 2, 2, 2, 2, 2, 2]),
        (33, [1; 10]),
        (64, [1; 10]),
    ] {
        for (room, expected) in rooms.into_iter().zip(replies) {
            let mut kept = vec![0x55; room];
            let reply = calls::expand_key(&vec![0; key], &mut kept);
            edges.push(edge(format!("reply to a key of {key} bytes, room for {room}"), reply, expected));
            written += if expected == 0 { 0 } else { difference(&kept, &vec![0x55; room]) };
        }
    }
    edges.push(edge("bytes that are written by those that are refused", written, 0));
    edges
}

/// FIPS 197, A.1 to A.3: the key, the four words behind it, and the last four.
type Expanded = (&'static str, &'static [u32], [u32; 4], [u32; 4]);
const EXPANDED: [Expanded; 3] = [
    (
        "A.1",
        &[0x2b7e1516, 0x28aed2a6, 0xabf71588, 0x09cf4f3c],
        [0xa0fafe17, 0x88542cb1, 0x23a33939, 0x2a6c7605],
        [0xd014f9a8, 0xc9ee2589, 0xe13f0cc8, 0xb6630ca6],
    ),
    (
        "A.2",
        &[0x8e73b0f7, 0xda0e6452, 0xc810f32b, 0x809079e5, 0x62f8ead2, 0x522c6b7b],
        [0xfe0c91f7, 0x2402f5a5, 0xec12068e, 0x6c827f6b],
        [0xe98ba06f, 0x448c773c, 0x8ecc7204, 0x01002202],
    ),
    (
        "A.3",
        &[0x603deb10, 0x15ca71be, 0x2b73aef0, 0x857d7781, 0x1f352c07, 0x3b6108d7, 0x2d9810a3, 0x0914dff4],
        [0x9ba35411, 0x8e6925af, 0xa51a8b5f, 0x2067fcde],
        [0xfe4890d1, 0xe6188d0b, 0x046df344, 0x706c631e],
    ),
];

pub fn expanded() -> Vec<Edge> {
    let mut edges = Vec::new();
    for (Key { bytes, schedule, .. }, (section, key, next, last)) in KEYS.iter().zip(EXPANDED) {
        let (key, mut w) = (words(key), vec![0x55; *schedule]);
        edges.extend([
            edge(format!("reply to the key of FIPS 197, {section}"), calls::expand_key(&key, &mut w), 0),
            edge("bytes that are not the key's at first", difference(&w[..*bytes], &key), 0),
            edge("bytes that are not the standard's behind it", difference(&w[*bytes..*bytes + 16], &words(&next)), 0),
            edge("bytes that are not the standard's at last", difference(&w[*schedule - 16..], &words(&last)), 0),
        ]);
    }
    edges
}

/// FIPS 197, C.1 to C.3: one block under the keys 00 01 ..
const CIPHERTEXTS: [(&str, [u32; 4]); 3] = [
    ("C.1", [0x69c4e0d8, 0x6a7b0430, 0xd8cdb780, 0x70b4c55a]),
    ("C.2", [0xdda97ca4, 0x864cdfe0, 0x6eaf70a0, 0xec0d7191]),
    ("C.3", [0x8ea2b7ca, 0x516745bf, 0xeafc4990, 0x4b496089]),
];

/// By the plain engine, and by the masked one at all offsets with all steps, each call there and back.
pub fn ciphertexts() -> Vec<Edge> {
    let plain: [u8; 16] = std::array::from_fn(|i| 0x11 * i as u8);
    let mut edges = Vec::new();
    for (key, (section, sealed)) in KEYS.iter().zip(CIPHERTEXTS) {
        let (w, sealed) = (key.rising(), words(&sealed));
        let (mut replies, mut differ) = (0, [0; 2]);
        let mut tried = |way: usize, length: usize, run: &dyn Fn(&mut [u8]) -> u8| {
            let mut made = vec![0x55; length];
            replies += u16::from(run(&mut made));
            differ[way] += difference(&made[length - 16..], if way == 0 { &sealed } else { &plain });
        };
        let [there, back] = [ENCRYPTION, DECRYPTION].map(|recorded| recorded.lengths[key.place]);
        tried(0, 16, &|to| calls::encrypt(&w, &plain, to));
        tried(0, there, &|to| calls::record_plain(&w, &plain, to));
        tried(1, 16, &|to| calls::decrypt(&w, &sealed, to));
        for (offset, step) in (0..16).flat_map(|offset| [1].into_iter().chain(4..16).map(move |step| (offset, step))) {
            let offsets = of_one(offset);
            tried(0, 16, &|to| calls::encrypt_published(&w, &plain, to, &offsets, step, 0));
            tried(0, 16, &|to| calls::encrypt_blocks(&w, &plain, to, &[offset], step, 0));
            tried(0, 16, &|to| calls::encrypt_masked(&w, &plain, to, &PUBLISHED, &offsets, step, 0));
            tried(0, there, &|to| calls::record_masked(&w, &plain, &PUBLISHED, &offsets, step, to));
            tried(1, 16, &|to| calls::decrypt_published(&w, &sealed, to, &offsets, step));
            tried(1, 16, &|to| calls::decrypt_masked(&w, &sealed, to, &PUBLISHED, &offsets, step));
            tried(1, back, &|to| calls::record_masked_decryption(&w, &sealed, &PUBLISHED, &offsets, step, to));
        }
        edges.extend([
            edge(format!("sum of replies to FIPS 197, {section}, by both engines"), replies, 0),
            edge("bytes of it that are not the standard's, encrypted", differ[0], 0),
            edge("bytes of it that are not the standard's, decrypted", differ[1], 0),
        ]);
    }
    edges
}

/// Each length of a schedule with each of a record. Of those that go together, 976 does with two schedules, in either direction.
pub fn refused_records() -> Vec<Edge> {
    let lengths = [816, 976, 1136, 1168, 1360];
    let plain: Call = |w, block, _, _, _, to| calls::record_plain(w, block, to);
    let forth = [(176, [0, 8, 8, 8, 8]), (208, [8, 0, 8, 8, 8]), (240, [8, 8, 0, 8, 8])];
    let back = [(176, [8, 0, 8, 8, 8]), (208, [8, 8, 8, 0, 8]), (240, [8, 8, 8, 8, 0])];
    let (mut edges, mut written) = (Vec::new(), 0);
    for (name, call, taken) in [
        ("record_plain", plain, forth),
        ("record_masked", ENCRYPTION.call, forth),
        ("record_masked_decryption", DECRYPTION.call, back),
    ] {
        let others = [0, 16, 160, 175, 177, 192, 224, 256].map(|schedule| (schedule, [2; 5]));
        for (schedule, replies) in taken.into_iter().chain(others) {
            for (length, expected) in lengths.into_iter().zip(replies) {
                let mut kept = vec![0x55; length];
                let reply = call(&vec![0; schedule], &[0; 16], &PUBLISHED, &[0; 16], 1, &mut kept);
                edges.push(edge(format!("{name}, schedule of {schedule}, record of {length}"), reply, expected));
                written += if expected == 0 { 0 } else { difference(&kept, &vec![0x55; length]) };
            }
        }
    }
    edges.push(edge("bytes that are written by those that are refused", written, 0));
    edges
}

/// At offset 0 with step 5: the last boxes give the labels of as many steps as there are rounds. M1, M2, M7, M11 and M12 are 0f, 36,
/// 6a, ac and c6. ShiftRows takes what is byte 1 from byte 5.
pub fn last_masks() -> Vec<Edge> {
    let covers = |recorded: &Recorded, key: &Key| {
        let [plain, masked] = [&[0; 16], &PUBLISHED].map(|masks| recorded.with_key(key, masks, &of_one(0), 5));
        move |point: usize, byte: usize| plain[16 * point + byte] ^ masked[16 * point + byte]
    };
    let [short, middle, _] = &KEYS;
    let (forth, back) = (covers(&ENCRYPTION, short), covers(&DECRYPTION, short));
    let (middle_forth, middle_back) = (covers(&ENCRYPTION, middle), covers(&DECRYPTION, middle));
    vec![
        edge("mask of a 16-byte key after boxes 9, byte 0, label 50", forth(47, 0), 0x36),
        edge("the same after key 10, byte 1, label 55 of byte 5", forth(49, 1), 0x6a),
        edge("the same at the end, byte 1, no mask", forth(50, 1), 0x00),
        edge("the same after boxes 9, byte 0, label 50, decrypting", back(58, 0), 0x36),
        edge("the same after key 0, byte 15, label 65", back(59, 15), 0x0f),
        edge("the same at the end, byte 15, no mask", back(60, 15), 0x00),
        edge("mask of a 24-byte key after boxes 11, byte 0, label 60", middle_forth(57, 0), 0xc6),
        edge("the same after key 12, byte 1, label 65 of byte 5", middle_forth(59, 1), 0x0f),
        edge("the same at the end, byte 1, no mask", middle_forth(60, 1), 0x00),
        edge("the same after boxes 11, byte 0, label 60, decrypting", middle_back(70, 0), 0xc6),
        edge("the same after key 0, byte 15, label 75", middle_back(71, 15), 0xac),
        edge("the same at the end, byte 15, no mask", middle_back(72, 15), 0x00),
    ]
}
