//! Wrapped keys: RFC 3394's examples, and what is refused.

use super::{difference, edge, Edge};
use slipgrease::calls;
use std::iter;

/// The wrapping key of RFC 3394, 4.3, 4.5 and 4.6, expanded.
fn schedule() -> [u8; 240] {
    let (key, mut w): ([u8; 32], [u8; 240]) = (std::array::from_fn(|i| i as u8), [0; 240]);
    let _ = calls::expand_key(&key, &mut w);
    w
}

/// Their key data: the first 16, 24 or all of these bytes.
fn key_data(length: usize) -> Vec<u8> {
    (0..16).map(|i| 0x11 * i).chain(0..16).take(length).collect()
}

const WRAPPED: [(&str, &[u64]); 3] = [
    ("4.3", &[0x64e8c3f9ce0f5ba2, 0x63e9777905818a2a, 0x93c8191e7d6e8ae7]),
    ("4.5", &[0xa8f9bc1612c68b3f, 0xf6e6f4fbe30e71e4, 0x769c8b80a32cb895, 0x8cd5d17d6b254da1]),
    ("4.6", &[0x28c9f404c4b810f4, 0xcbccb35cfb87f826, 0x3f5786e2d80ed326, 0xcbc7f0e71a99f43b, 0xfb988b9b7a02dd21]),
];

fn bytes(values: &[u64]) -> Vec<u8> {
    values.iter().flat_map(|value| value.to_be_bytes()).collect()
}

/// By the plain engine, and by the masked one at all offsets.
pub fn examples() -> Vec<Edge> {
    let w = schedule();
    let mut edges = Vec::new();
    for (section, values) in WRAPPED {
        let sealed = bytes(values);
        let opened = key_data(sealed.len() - 8);
        let (mut replies, mut differ) = (0, [0; 2]);
        for offset in iter::once(None).chain((0..16).map(Some)) {
            let (mut there, mut back) = (vec![0; sealed.len()], vec![0; opened.len()]);
            let answers = match offset {
                None => [calls::wrap(&w, &opened, &mut there), calls::unwrap(&w, &sealed, &mut back)],
                Some(offset) => {
                    let wrapped = calls::wrap_masked(&w, &opened, &mut there, offset);
                    [wrapped, calls::unwrap_masked(&w, &sealed, &mut back, offset)]
                }
            };
            replies += answers.map(u16::from).iter().sum::<u16>();
            differ[0] += difference(&there, &sealed);
            differ[1] += difference(&back, &opened);
        }
        edges.extend([
            edge(format!("sum of replies to RFC 3394, {section}, by both engines"), replies, 0),
            edge("bytes of it that are not the RFC's, wrapped", differ[0], 0),
            edge("bytes of it that are not the RFC's, unwrapped", differ[1], 0),
        ]);
    }
    edges
}

/// Checked are: schedule, offset by the masked engine, key data, wrapped key; and of what is opened here the integrity is broken.
pub fn refused() -> Vec<Edge> {
    let mut edges = Vec::new();
    for (w, offset, key_data, wrapped, plain, masked) in [
        (240, 0, 16, 24, 0, 0),
        (240, 15, 256, 264, 0, 0),
        (240, 16, 16, 24, 0, 6),
        (239, 16, 15, 24, 2, 2),
        (240, 255, 15, 24, 16, 6),
        (240, 0, 0, 8, 16, 16),
        (240, 0, 8, 16, 16, 16),
        (240, 0, 12, 20, 16, 16),
        (240, 0, 20, 28, 16, 16),
        (240, 0, 257, 265, 16, 16),
        (240, 0, 264, 272, 16, 16),
        (240, 0, 264, 264, 16, 16),
        (240, 0, 24, 24, 17, 17),
        (240, 0, 24, 31, 17, 17),
        (240, 0, 24, 33, 17, 17),
        (240, 0, 24, 40, 17, 17),
        (240, 16, 24, 33, 17, 6),
    ] {
        let given = [vec![0; w], vec![0; key_data], vec![0; wrapped]];
        let [w, key_data, wrapped] = [&given[0][..], &given[1], &given[2]];
        let broken = |number: u16| if number == 0 { 18 } else { number };
        let mut written = 0;
        let mut tried = |call: &str, length: usize, expected: u16, run: &dyn Fn(&mut [u8]) -> u8| {
            let mut kept = vec![0x55; length];
            let name = format!("{call}, {} of key data, {} wrapped, offset {offset}", key_data.len(), wrapped.len());
            edges.push(edge(name, run(&mut kept), expected));
            written += if expected == 0 { 0 } else { difference(&kept, &vec![0x55; length]) };
        };
        tried("wrap", wrapped.len(), plain, &|to| calls::wrap(w, key_data, to));
        tried("wrap_masked", wrapped.len(), masked, &|to| calls::wrap_masked(w, key_data, to, offset));
        tried("unwrap", key_data.len(), broken(plain), &|to| calls::unwrap(w, wrapped, to));
        tried("unwrap_masked", key_data.len(), broken(masked), &|to| calls::unwrap_masked(w, wrapped, to, offset));
        edges.push(edge("bytes that are written by those that are refused", written, 0));
    }
    edges
}

/// Those of shorter keys are taken by the runs, and not here.
pub fn schedules() -> Vec<Edge> {
    let (mut edges, mut written) = (Vec::new(), 0);
    for length in [0, 16, 176, 208, 224, 239, 241, 256] {
        let mut tried = |call: &str, run: &dyn Fn(&[u8], &mut [u8]) -> u8| {
            let mut kept = [0x55; 24];
            let name = format!("reply to a schedule of {length} bytes, {call}");
            edges.push(edge(name, run(&vec![0; length], &mut kept), 2));
            written += difference(&kept, &[0x55; 24]);
        };
        tried("wrap", &|w, to| calls::wrap(w, &[0; 16], to));
        tried("wrap_masked", &|w, to| calls::wrap_masked(w, &[0; 16], to, 16));
        tried("unwrap", &|w, to| calls::unwrap(w, &[0; 24], &mut to[..16]));
        tried("unwrap_masked", &|w, to| calls::unwrap_masked(w, &[0; 24], &mut to[..16], 16));
    }
    edges.push(edge("bytes that are written then", written, 0));
    edges
}

/// The key data of 4.6 under initial values that differ from a6 eight times in one bit, the last and the first, and under that of
/// RFC 5649, all made by OpenSSL; and its wrapped key with the last bit changed.
pub fn broken() -> Vec<Edge> {
    let w = schedule();
    let mut damaged = bytes(WRAPPED[2].1);
    damaged[39] ^= 1;
    let cases = [
        (
            "with initial value a6a6a6a6a6a6a6a7",
            bytes(&[0x7035afe3a1f63145, 0x70a750c0447e20ea, 0xde73322d40ec4bfc, 0x1380bf097b0dc638, 0xbc275cb34c63803a]),
        ),
        (
            "with initial value 26a6a6a6a6a6a6a6",
            bytes(&[0xb899c8405faa4223, 0xd02f8fec09c0c3ab, 0x03b8a61983d9643b, 0x585caac9b23b3ff5, 0x26de266643c90f3b]),
        ),
        (
            "with initial value a65959a600000020",
            bytes(&[0x4a8029243027353b, 0x0694cf1bd8fc745b, 0xb0ce8a739b19b196, 0x0b12426d4c39cfed, 0xa926d103ab34e9f6]),
        ),
        ("damaged in its last bit", damaged),
    ];
    let mut edges = Vec::new();
    for (name, wrapped) in cases {
        let mut kept = [[0x55; 32]; 2];
        edges.push(edge(format!("unwrap, a key {name}"), calls::unwrap(&w, &wrapped, &mut kept[0]), 18));
        edges.push(edge(format!("unwrap_masked, a key {name}"), calls::unwrap_masked(&w, &wrapped, &mut kept[1], 11), 18));
        edges.push(edge("bytes that are written then", difference(&kept.concat(), &[0x55; 64]), 0));
    }
    edges.extend([
        edge("fault that reply 16 is, the caller's", calls::sort_reply(16), 1),
        edge("fault that reply 17 is, the caller's", calls::sort_reply(17), 1),
        edge("fault that reply 18 is, the data's", calls::sort_reply(18), 2),
    ]);
    edges
}
