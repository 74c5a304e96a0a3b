//! The calls that take packets, compared on every adaptation code with every field length and all bits, on every length of buffers
//! and on every PID.

use crate::cases::{draw, packet};
use crate::compare::Trial;
use crate::lent::{Buffer, Lent};
use crate::packet::{pipes, Header, PACKET, PIPE, PIPES};
use crate::random::Random;
use crate::replies::{descrambles, takes_packets};

/// Whether the call takes packets, and so has been compared.
pub fn compare(trial: &mut Trial, random: &mut Random) -> bool {
    if !takes_packets(trial.call.refusals) {
        return false;
    }
    headers(trial, random);
    lengths(trial, random);
    pids(trial, random);
    twice(trial, random);
    true
}

/// Each adaptation code, length of a field and scrambling bits, of a PID that is listed and one that is not; in both parities,
/// where the bits do not name them.
fn headers(trial: &mut Trial, random: &mut Random) {
    let parities = if descrambles(trial.call.refusals) { 1 } else { 2 };
    for number in 0..4 * 4 * 256 * 2 * parities {
        let (adaptation, scrambling, length) = (number % 4, number / 4 % 4, number / 16 % 256);
        let (listed, odd) = (number / 4096 % 2 == 1, number / 8192 == 1);
        let mut lent = draw(random, trial.boxes, trial.call.refusals, &[]);
        let pid = match listed {
            true => pipes(lent.pipes.lent()).expect("a list that is taken")[random.below(PIPES)].pid,
            // No list may have these.
            false => [0x0000, 0x000f, 0x1fff][random.below(3)],
        };
        let header =
            Header { pid, scrambling: scrambling as u8, adaptation: adaptation as u8, ..Header::read(lent.packet.lent()) };
        lent.packet = lent_packet(random, header, length as u8);
        trial.case(random, Lent { odd, ..lent });
    }
}

fn lent_packet(random: &mut Random, header: Header, length: u8) -> Buffer {
    let packet = packet(random, header, length);
    Buffer::new(random, &packet)
}

/// Each length about that of a packet, of the packet, of the buffer for it and of both; and of the list up to one pipe too many.
fn lengths(trial: &mut Trial, random: &mut Random) {
    let longer = |random: &mut Random, buffer: &Buffer, length: usize| {
        let mut body = buffer.lent().to_vec();
        body.resize(length, 0);
        Buffer::new(random, &body)
    };
    for length in 0..=2 * PACKET {
        for which in 0..3 {
            let mut lent = draw(random, trial.boxes, trial.call.refusals, &[]);
            if which != 0 {
                lent.packet = longer(random, &lent.packet, length);
            }
            if which != 1 {
                lent.packet_out = longer(random, &lent.packet_out, length);
            }
            trial.case(random, lent);
        }
    }
    for length in 0..=(PIPES + 1) * PIPE {
        let mut lent = draw(random, trial.boxes, trial.call.refusals, &[]);
        lent.pipes = longer(random, &lent.pipes, length);
        trial.case(random, lent);
    }
}

/// Each PID in the list, and many numbers of sixteen bits that are none; and the lower thirteen bits in the packet.
fn pids(trial: &mut Trial, random: &mut Random) {
    let mut lent = draw(random, trial.boxes, trial.call.refusals, &[]);
    let list = lent.pipes.lent().to_vec();
    let is_tried = |&pid: &u16| pid <= 0x2020 || pid % 61 == 0 || matches!(pid % 0x2000, 0x0010 | 0x1ffe);
    for pid in (0..=0xffff).filter(is_tried) {
        let from = PIPE * (usize::from(pid) % PIPES);
        lent.pipes.lent_mut().copy_from_slice(&list);
        lent.pipes.lent_mut()[from..from + 2].copy_from_slice(&pid.to_be_bytes());
        let scrambling = if descrambles(trial.call.refusals) { 0b10 + random.below(2) as u8 } else { 0b00 };
        let header = Header { pid: pid & 0x1fff, scrambling, adaptation: 0b11, ..Header::read(lent.packet.lent()) };
        // One block is enough here.
        lent.packet = lent_packet(random, header, 167);
        trial.case(random, lent.clone());
    }
}

/// Each two pipes with one PID, and with all else the same or not.
fn twice(trial: &mut Trial, random: &mut Random) {
    for (first, second) in (0..PIPES).flat_map(|second| (0..second).map(move |first| (first, second))) {
        for length in [2, PIPE] {
            let mut lent = draw(random, trial.boxes, trial.call.refusals, &[]);
            lent.pipes.lent_mut().copy_within(PIPE * first..PIPE * first + length, PIPE * second);
            trial.case(random, lent);
        }
    }
}
