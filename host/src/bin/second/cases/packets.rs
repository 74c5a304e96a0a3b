//! Draws transport packets and lists of pipes.

use super::{bytes, content, wrong_length};
use crate::cipher::{expand_key, Boxes};
use crate::packet::{Header, PACKET, PIPE, PIPES, SYNC};
use crate::random::Random;
use crate::replies::{descrambles, takes_packets, Cause};

/// A packet, the buffer for it and the list; all empty for a call that takes none. Where a field or bits are to be wrong the PID is
/// listed, and else mostly.
pub fn three(random: &mut Random, boxes: &Boxes, order: &[Cause], wants: impl Fn(Cause) -> bool) -> [Vec<u8>; 3] {
    if !takes_packets(order) {
        return [(); 3].map(|()| Vec::new());
    }
    let mut list = list(random, boxes);
    if wants(Cause::Pipes) {
        spoil_pids(random, &mut list);
    }
    let faulty = wants(Cause::Field) || wants(Cause::BitsToScramble) || wants(Cause::BitsToDescramble);
    let listed = faulty || random.below(4) > 0;
    let pid = if listed { listed_pid(random, &list) } else { unlisted_pid(random, &list) };
    let (adaptation, length, scrambling) = match listed {
        true => field_and_bits(random, order, &wants),
        false => (random.below(4) as u8, random.byte(), random.below(4) as u8),
    };
    let sync = if wants(Cause::Sync) { SYNC ^ (1 + random.below(255) as u8) } else { SYNC };
    let header = Header { sync, indicators: random.below(8) as u8, pid, scrambling, adaptation, counter: random.below(16) as u8 };
    let mut packet = packet(random, header, length);
    let mut packet_out = content(random, PACKET);
    if wants(Cause::Packet) {
        let (which, wrong) = (random.below(3), wrong_length(random, PACKET));
        if which != 0 {
            packet.resize(wrong, 0);
        }
        if which != 1 {
            packet_out = bytes(random, PACKET, true);
        }
    }
    if wants(Cause::Pipes) && random.below(2) == 0 {
        let length = wrong_length(random, PIPES * PIPE);
        list.resize(length, 0);
    }
    [packet, packet_out, list]
}

/// Any packet with a header, and with a field of a length where the header's code is not that of a payload alone.
pub fn packet(random: &mut Random, header: Header, length: u8) -> Vec<u8> {
    let mut packet = content(random, PACKET);
    packet[..4].copy_from_slice(&header.bytes());
    if header.adaptation != 0b01 {
        packet[4] = length;
    }
    packet
}

/// Seven different PIDs, often the first and the last that are free, with schedules of keys or any.
fn list(random: &mut Random, boxes: &Boxes) -> Vec<u8> {
    let mut list = content(random, PIPES * PIPE);
    let mut pids: Vec<u16> = [0x0010, 0x1ffe].into_iter().filter(|_| random.below(4) == 0).collect();
    while pids.len() < PIPES {
        let pid = 0x0010 + random.below(0x1fef) as u16;
        if !pids.contains(&pid) {
            pids.push(pid);
        }
    }
    pids.rotate_left(random.below(PIPES));
    let of_keys = random.below(4) == 0;
    for (pipe, pid) in list.chunks_mut(PIPE).zip(pids) {
        pipe[..2].copy_from_slice(&pid.to_be_bytes());
        if of_keys {
            let schedules = [(); 2].map(|()| expand_key(boxes, &random.bytes(32)));
            pipe[2..482].copy_from_slice(&schedules.concat());
        }
    }
    list
}

/// One outside those that are free, also in its upper three bits alone; or one twice, at times with all that the pipe has.
fn spoil_pids(random: &mut Random, list: &mut [u8]) {
    let (place, other) = (random.below(PIPES), 1 + random.below(PIPES - 1));
    let from = PIPE * place;
    let pid = u16::from_be_bytes([list[from], list[from + 1]]);
    let wrong = [0x0000, 0x000f, 0x1fff, 0x2000, 0x2010, 0xffff, pid | 0x2000, pid | 0x8000];
    match random.below(4) {
        0 => list.copy_within(from..from + 2, PIPE * ((place + other) % PIPES)),
        1 => list.copy_within(from..from + PIPE, PIPE * ((place + other) % PIPES)),
        _ => list[from..from + 2].copy_from_slice(&wrong[random.below(wrong.len())].to_be_bytes()),
    }
}

/// The thirteen bits of one in the list.
fn listed_pid(random: &mut Random, list: &[u8]) -> u16 {
    let from = PIPE * random.below(PIPES);
    u16::from_be_bytes([list[from] & 0x1f, list[from + 1]])
}

/// Any that is not in the list, often one that is a bit off, or not free for streams.
fn unlisted_pid(random: &mut Random, list: &[u8]) -> u16 {
    loop {
        let pid = match random.below(4) {
            0 => [0x0000, 0x0001, 0x000f, 0x1fff][random.below(4)],
            1 => listed_pid(random, list) ^ 1 << random.below(13),
            _ => random.below(0x2000) as u16,
        };
        if list.chunks(PIPE).all(|pipe| pipe[..2] != pid.to_be_bytes()) {
            return pid;
        }
    }
}

/// Code, length and scrambling bits for a listed PID, taken by the call or wrong as asked. A payload is short behind a field of 168
/// bytes and more.
fn field_and_bits(random: &mut Random, order: &[Cause], wants: impl Fn(Cause) -> bool) -> (u8, u8, u8) {
    let wrong_bits = wants(Cause::BitsToScramble) || wants(Cause::BitsToDescramble);
    let over_short = descrambles(order) && wrong_bits && random.below(2) == 0;
    let (adaptation, length) = match random.below(4) {
        _ if wants(Cause::Field) => wrong_field(random),
        n if over_short => [(0b10, 183), (0b11, 168), (0b11, 182), (0b11, 168 + random.below(15) as u8)][n],
        0 => (0b10, 183),
        1 => (0b11, [0, 1, 7, 166, 167, 168, 181, 182][random.below(8)]),
        2 => (0b11, random.below(183) as u8),
        _ => (0b01, 0),
    };
    let has_block = adaptation == 0b01 || adaptation == 0b11 && length < 168;
    let scrambling = match (wrong_bits, descrambles(order)) {
        (false, true) if has_block => [0b00, 0b10, 0b11][random.below(3)],
        (false, _) => 0b00,
        (true, true) if !over_short => 0b01,
        (true, true) => 0b10 + random.below(2) as u8,
        (true, false) => 1 + random.below(3) as u8,
    };
    (adaptation, length, scrambling)
}

fn wrong_field(random: &mut Random) -> (u8, u8) {
    match random.below(3) {
        0 => (0b00, [0, 183, 255, random.byte()][random.below(4)]),
        1 => (0b10, [0, 182, 184, 255, random.below(183) as u8][random.below(5)]),
        _ => (0b11, [183, 184, 255, 183 + random.below(73) as u8][random.below(4)]),
    }
}
