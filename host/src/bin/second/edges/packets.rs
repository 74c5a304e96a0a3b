//! Packets: SP 800-38A's example as a payload, what is copied, and what is refused.

use super::{difference, edge, Edge};
use slipgrease::calls;

const PIPE: usize = 498;
const PIDS: [u16; 7] = [0x0100, 0x0010, 0x1ffe, 0x0101, 0x0ccc, 0x1000, 0x0020];

/// SP 800-38A, F.2.5 and F.2.6: a key, the starting block, and four blocks, plain and encrypted.
const KEY: [u128; 2] = [0x603deb1015ca71be2b73aef0857d7781, 0x1f352c073b6108d72d9810a30914dff4];
const START: u128 = 0x000102030405060708090a0b0c0d0e0f;
const PLAIN: [u128; 4] = [
    0x6bc1bee22e409f96e93d7e117393172a,
    0xae2d8a571e03ac9c9eb76fac45af8e51,
    0x30c81c46a35ce411e5fbc1191a0a52ef,
    0xf69f2445df4f9b17ad2b417be66c3710,
];
const CIPHER: [u128; 4] = [
    0xf58c4c04d6e5f1ba779eabfb5f7bfbd6,
    0x9cfc4e967edb808d679f777bc6702c7d,
    0x39f23369a9d9bacfa530e26304231461,
    0xb2eb05e2c39be9fcda6c19078c6a9d1b,
];

fn bytes(blocks: &[u128]) -> Vec<u8> {
    blocks.iter().flat_map(|block| block.to_be_bytes()).collect()
}

/// The example's key for both parities and its starting block, for PID 0100; other pipes have 00 and ff everywhere.
fn list() -> Vec<u8> {
    let mut list = [vec![0; 4 * PIPE], vec![0xff; 3 * PIPE]].concat();
    for (pipe, pid) in list.chunks_mut(PIPE).zip(PIDS) {
        pipe[..2].copy_from_slice(&pid.to_be_bytes());
    }
    for from in [2, 242] {
        let _ = calls::expand_key(&bytes(&KEY), &mut list[from..from + 240]);
    }
    list[482..498].copy_from_slice(&bytes(&[START]));
    list
}

/// Code and scrambling bits are those of the fourth byte; a length of a field stands behind it.
fn packet(pid: u16, fourth: u8, length: u8) -> Vec<u8> {
    let [high, low] = pid.to_be_bytes();
    [&[0x47, high, low, fourth, length][..], &[0xaa; 183]].concat()
}

/// Behind a field of 116 bytes the payload has four blocks and three bytes more.
pub fn example() -> Vec<Edge> {
    let (list, mut edges) = (list(), Vec::new());
    let with = |fourth: u8, blocks: &[u128]| {
        let mut packet = packet(0x0100, fourth, 116);
        packet[121..185].copy_from_slice(&bytes(blocks));
        packet
    };
    for (name, odd, fourth) in [("even", false, 0xb5), ("odd", true, 0xf5)] {
        let (clear, scrambled) = (with(0x35, &PLAIN), with(fourth, &CIPHER));
        let (mut there, mut back) = ([0; 188], [0; 188]);
        edges.extend([
            edge(format!("scramble, SP 800-38A's CBC-AES256, {name}"), calls::scramble(&clear, &mut there, &list, odd), 0),
            edge("bytes of it that are not the example's", difference(&there, &scrambled), 0),
            edge(format!("descramble, SP 800-38A's CBC-AES256, {name}"), calls::descramble(&scrambled, &mut back, &list), 0),
            edge("bytes of it that are not the example's", difference(&back, &clear), 0),
        ]);
    }
    edges
}

/// The codes, the lengths of fields and the bits at the edges of what is taken of a listed PID: the replies of both calls, and
/// the scrambling bits where they have written a packet.
pub fn fields() -> Vec<Edge> {
    let (refused, mut edges) = (4, Vec::new());
    for (fourth, length, scramble, scrambled, descramble, descrambled) in [
        (0x10, 0, 0, 3, 0, 0),
        (0x10, 255, 0, 3, 0, 0),
        (0x30, 0, 0, 3, 0, 0),
        (0x30, 167, 0, 3, 0, 0),
        (0x30, 168, 0, 0, 0, 0),
        (0x30, 182, 0, 0, 0, 0),
        (0x30, 183, 21, refused, 21, refused),
        (0x30, 255, 21, refused, 21, refused),
        (0x20, 183, 0, 0, 0, 0),
        (0x20, 182, 21, refused, 21, refused),
        (0x20, 184, 21, refused, 21, refused),
        (0x20, 0, 21, refused, 21, refused),
        (0x00, 0, 21, refused, 21, refused),
        (0x00, 183, 21, refused, 21, refused),
        (0x50, 0, 23, refused, 23, refused),
        (0x90, 0, 23, refused, 0, 0),
        (0xd0, 0, 23, refused, 0, 0),
        (0x70, 168, 23, refused, 23, refused),
        (0xb0, 167, 23, refused, 0, 0),
        (0xf0, 168, 23, refused, 23, refused),
        (0xb0, 182, 23, refused, 23, refused),
        (0xa0, 183, 23, refused, 23, refused),
        (0xe0, 182, 21, refused, 21, refused),
        (0xc0, 183, 21, refused, 21, refused),
    ] {
        let (list, packet) = (list(), packet(0x0100, fourth, length));
        for (call, number, bits) in [("scramble", scramble, scrambled), ("descramble", descramble, descrambled)] {
            let mut written = [0x55; 188];
            let given = match call {
                "scramble" => calls::scramble(&packet, &mut written, &list, true),
                _ => calls::descramble(&packet, &mut written, &list),
            };
            let now = if written == [0x55; 188] { refused } else { u16::from(written[3] >> 6) };
            edges.push(edge(format!("{call}, fourth byte {fourth:02x}, length {length}"), given, number));
            edges.push(edge("scrambling bits then, 4 where nothing is written", now, bits));
        }
    }
    edges
}

/// What both calls are lent.
struct Given {
    packet: Vec<u8>,
    room: usize,
    list: Vec<u8>,
}

/// A payload alone, of a listed PID: taken by both calls.
fn given() -> Given {
    Given { packet: packet(0x0100, 0x10, 0), room: 188, list: list() }
}

impl Given {
    fn put_pid(&mut self, place: usize, pid: u16) {
        self.list[PIPE * place..PIPE * place + 2].copy_from_slice(&pid.to_be_bytes());
    }

    /// The replies of both calls; and how many bytes they have written is added to a sum.
    fn tried(&self, name: &str, expected: u16, written: &mut u16) -> [Edge; 2] {
        let untouched = vec![0x55; self.room];
        let [mut there, mut back] = [untouched.clone(), untouched.clone()];
        let edges = [
            edge(format!("scramble, {name}"), calls::scramble(&self.packet, &mut there, &self.list, false), expected),
            edge(format!("descramble, {name}"), calls::descramble(&self.packet, &mut back, &self.list), expected),
        ];
        *written += difference(&there, &untouched) + difference(&back, &untouched);
        edges
    }
}

/// What can be wrong, in the order in which it is looked for.
type Fault = (&'static str, u16, fn(&mut Given));
const FAULTS: [Fault; 20] = [
    ("packet of 187", 19, |g| g.packet.truncate(187)),
    ("packet of 189", 19, |g| g.packet.push(0)),
    ("no packet", 19, |g| g.packet.clear()),
    ("room for 187", 19, |g| g.room = 187),
    ("room for 189", 19, |g| g.room = 189),
    ("no room", 19, |g| g.room = 0),
    ("sync 46", 20, |g| g.packet[0] = 0x46),
    ("list of 3485", 22, |g| g.list.truncate(3485)),
    ("list of 3487", 22, |g| g.list.push(0)),
    ("list with schedules of 176", 22, |g| g.list.truncate(7 * (2 + 2 * 176 + 16))),
    ("list with schedules of 208", 22, |g| g.list.truncate(7 * (2 + 2 * 208 + 16))),
    ("no list", 22, |g| g.list.clear()),
    ("000f listed", 22, |g| g.put_pid(6, 0x000f)),
    ("1fff listed", 22, |g| g.put_pid(6, 0x1fff)),
    ("2010 listed", 22, |g| g.put_pid(6, 0x2010)),
    ("2100 beside 0100", 22, |g| g.put_pid(6, 0x2100)),
    ("0101 twice", 22, |g| g.put_pid(6, 0x0101)),
    ("a pipe twice", 22, |g| g.list.copy_within(4 * PIPE..5 * PIPE, 5 * PIPE)),
    ("code 00", 21, |g| g.packet[3] &= 0xcf),
    ("bits 01", 23, |g| g.packet[3] |= 0x40),
];

/// Each alone, and any two that have different numbers.
pub fn refused() -> Vec<Edge> {
    let (mut edges, mut written) = (Vec::new(), 0);
    for (i, (name, number, fault)) in FAULTS.iter().enumerate() {
        let mut one = given();
        fault(&mut one);
        edges.extend(one.tried(name, *number, &mut written));
        for (later_name, later_number, later) in &FAULTS[i + 1..] {
            if later_number != number {
                let mut both = given();
                later(&mut both);
                fault(&mut both);
                edges.extend(both.tried(&format!("{name}, {later_name}"), *number, &mut written));
            }
        }
    }
    edges.push(edge("bytes that are written by all of these", written, 0));
    edges.extend(given().tried("none of these", 0, &mut 0));
    edges
}

/// PIDs that are not listed are copied, whatever else their packets hold, except where sync or list are wrong; and whose fault the
/// replies are.
pub fn unlisted() -> Vec<Edge> {
    let mut edges = Vec::new();
    for (pid, fourth) in [(0x0000, 0x1f), (0x1fff, 0xd0), (0x0111, 0x00), (0x0110, 0xc0), (0x0102, 0x60), (0x1ccc, 0xf7)] {
        let packet = packet(pid, fourth, 255);
        let (mut there, mut back) = ([0; 188], [0; 188]);
        let replies = [calls::scramble(&packet, &mut there, &list(), true), calls::descramble(&packet, &mut back, &list())];
        edges.extend([
            edge(format!("scramble, PID {pid:04x}, fourth byte {fourth:02x}"), replies[0], 0),
            edge(format!("descramble, PID {pid:04x}, fourth byte {fourth:02x}"), replies[1], 0),
            edge("bytes that either has changed", difference(&there, &packet) + difference(&back, &packet), 0),
        ]);
    }
    let mut written = 0;
    for (name, number, fault) in FAULTS.iter().filter(|fault| matches!(fault.1, 20 | 22)) {
        let mut other = Given { packet: packet(0x0000, 0x10, 0), ..given() };
        fault(&mut other);
        edges.extend(other.tried(&format!("PID 0000, {name}"), *number, &mut written));
    }
    edges.push(edge("bytes that are written by all of these", written, 0));
    for (number, sort) in [(19, 1), (20, 2), (21, 2), (22, 1), (23, 2), (24, 1), (25, 1), (255, 1)] {
        edges.push(edge(format!("sort of reply {number}: 1 the caller's fault, 2 the data's"), calls::sort_reply(number), sort));
    }
    edges
}
