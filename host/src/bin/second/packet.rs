//! Transport packets as ISO/IEC 13818-1 lays them out, 2.4.3.2 to 2.4.3.5; the list of pipes as request 9 has it; and CBC as
//! SP 800-38A writes it, 6.2, over the cipher of this program.

use crate::cipher::{add, decrypt, encrypt, Boxes, State};
use std::collections::BTreeSet;
use std::iter::once;

pub const PACKET: usize = 188;
pub const SYNC: u8 = 0x47;

/// A pipe of the list, and how many there are.
pub const PIPE: usize = 2 + 2 * SCHEDULE + 16;
pub const PIPES: usize = 7;
const SCHEDULE: usize = 240;

/// The first four bytes of a packet, taken apart.
#[derive(Clone, Copy, Debug, PartialEq)]
pub struct Header {
    pub sync: u8,
    /// transport_error_indicator, payload_unit_start_indicator and transport_priority
    pub indicators: u8,
    pub pid: u16,
    pub scrambling: u8,
    pub adaptation: u8,
    pub counter: u8,
}

impl Header {
    pub fn read(packet: &[u8]) -> Header {
        let word = packet[..4].iter().fold(0, |word: u32, &byte| word << 8 | u32::from(byte));
        let bits = |from: u32, count: u32| word >> from & ((1 << count) - 1);
        Header {
            sync: bits(24, 8) as u8,
            indicators: bits(21, 3) as u8,
            pid: bits(8, 13) as u16,
            scrambling: bits(6, 2) as u8,
            adaptation: bits(4, 2) as u8,
            counter: bits(0, 4) as u8,
        }
    }

    pub fn bytes(self) -> [u8; 4] {
        let [pid_high, pid_low] = self.pid.to_be_bytes();
        let last = self.scrambling << 6 | self.adaptation << 4 | self.counter;
        [self.sync, self.indicators << 5 | pid_high, pid_low, last]
    }
}

/// Where the payload of a packet begins, which is its end where it has none. Nothing, where the adaptation code is reserved or
/// the length of the field does not fit it.
pub fn payload_start(packet: &[u8]) -> Option<usize> {
    match (Header::read(packet).adaptation, packet[4]) {
        (0b01, _) => Some(4),
        (0b10, 183) => Some(PACKET),
        (0b11, length @ 0..=182) => Some(5 + usize::from(length)),
        _ => None,
    }
}

/// Whether the payload has a whole block.
pub fn has_block(packet: &[u8]) -> bool {
    matches!(payload_start(packet), Some(start) if start + 16 <= PACKET)
}

/// One of the seven pipes.
pub struct Pipe<'a> {
    pub pid: u16,
    even: &'a [u8],
    odd: &'a [u8],
    start: State,
}

impl Pipe<'_> {
    fn read(bytes: &[u8]) -> Pipe<'_> {
        let (pid, bytes) = bytes.split_at(2);
        let (even, bytes) = bytes.split_at(SCHEDULE);
        let (odd, start) = bytes.split_at(SCHEDULE);
        Pipe { pid: u16::from(pid[0]) << 8 | u16::from(pid[1]), even, odd, start: block(start) }
    }

    fn schedule(&self, odd: bool) -> &[u8] {
        if odd {
            self.odd
        } else {
            self.even
        }
    }
}

/// The pipes of a list; nothing, where it is not as long as seven of them, or they have not seven different PIDs that are free for
/// streams (13818-1, table 2-3).
pub fn pipes(list: &[u8]) -> Option<Vec<Pipe<'_>>> {
    if list.len() != PIPES * PIPE {
        return None;
    }
    let pipes: Vec<Pipe> = list.chunks(PIPE).map(Pipe::read).collect();
    let free: BTreeSet<u16> = pipes.iter().map(|pipe| pipe.pid).filter(|pid| (0x0010..=0x1ffe).contains(pid)).collect();
    (free.len() == PIPES).then_some(pipes)
}

/// The pipe of a packet's PID.
pub fn pipe_of<'a, 'b>(pipes: &'a [Pipe<'b>], packet: &[u8]) -> Option<&'a Pipe<'b>> {
    let pid = Header::read(packet).pid;
    pipes.iter().find(|pipe| pipe.pid == pid)
}

/// What scrambling makes of a packet that it takes.
pub fn scrambled(boxes: &Boxes, pipes: &[Pipe], odd: bool, packet: &[u8]) -> Vec<u8> {
    let bits = if odd { 0b11 } else { 0b10 };
    match pipe_of(pipes, packet) {
        Some(pipe) if has_block(packet) => {
            changed(packet, bits, |blocks| cbc_encrypted(boxes, pipe.schedule(odd), &pipe.start, blocks))
        }
        _ => packet.to_vec(),
    }
}

/// What descrambling makes of a packet that it takes.
pub fn descrambled(boxes: &Boxes, pipes: &[Pipe], packet: &[u8]) -> Vec<u8> {
    match (pipe_of(pipes, packet), Header::read(packet).scrambling) {
        (Some(pipe), bits @ 0b10..=0b11) => {
            changed(packet, 0b00, |blocks| cbc_decrypted(boxes, pipe.schedule(bits == 0b11), &pipe.start, blocks))
        }
        _ => packet.to_vec(),
    }
}

/// The packet with other scrambling bits, and with other bytes for the whole blocks of its payload.
fn changed(packet: &[u8], scrambling: u8, made: impl Fn(&[u8]) -> Vec<u8>) -> Vec<u8> {
    let start = payload_start(packet).expect("a field that fits");
    let end = PACKET - (PACKET - start) % 16;
    let header = Header { scrambling, ..Header::read(packet) };
    [&header.bytes(), &packet[4..start], &made(&packet[start..end]), &packet[end..]].concat()
}

fn cbc_encrypted(boxes: &Boxes, schedule: &[u8], start: &State, plain: &[u8]) -> Vec<u8> {
    let mut last = *start;
    let mut sealed = |plain: &[u8]| {
        last = encrypt(boxes, schedule, &add(&block(plain), &last));
        last
    };
    plain.chunks(16).flat_map(&mut sealed).collect()
}

fn cbc_decrypted(boxes: &Boxes, schedule: &[u8], start: &State, cipher: &[u8]) -> Vec<u8> {
    let before = once(&start[..]).chain(cipher.chunks(16));
    let opened = |(cipher, before)| add(&decrypt(boxes, schedule, &block(cipher)), &block(before));
    cipher.chunks(16).zip(before).flat_map(opened).collect()
}

fn block(bytes: &[u8]) -> State {
    bytes.try_into().expect("sixteen bytes")
}
