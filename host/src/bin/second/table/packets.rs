//! The packet scrambler. What the list has for other pipes plays no part, so that these can be changed.

use super::{write, Call};
use crate::answer::{number, Answer};
use crate::cipher::Boxes;
use crate::lent::Lent;
use crate::packet::{descrambled, pipes, scrambled, Header, PIPE};
use crate::replies::Cause::*;
use slipgrease::calls;

fn library_scrambled(l: &mut Lent, list: &[u8]) -> Answer {
    number(calls::scramble(l.packet.lent(), l.packet_out.lent_mut(), list, l.odd))
}

fn library_descrambled(l: &mut Lent, list: &[u8]) -> Answer {
    number(calls::descramble(l.packet.lent(), l.packet_out.lent_mut(), list))
}

fn with_lent_list(l: &mut Lent, call: fn(&mut Lent, &[u8]) -> Answer) -> Answer {
    let list = l.pipes.lent().to_vec();
    call(l, &list)
}

/// With a list in which each byte of each pipe that is not the packet's is inverted, except for the PIDs.
fn with_others_inverted(l: &mut Lent, call: fn(&mut Lent, &[u8]) -> Answer) -> Answer {
    let mut list = l.pipes.lent().to_vec();
    if l.packet.lent().len() >= 4 {
        let own = Header::read(l.packet.lent()).pid.to_be_bytes();
        let others = list.chunks_mut(PIPE).filter(|pipe| !pipe.starts_with(&own));
        others.flat_map(|pipe| pipe.iter_mut().skip(2)).for_each(|byte| *byte = !*byte);
    }
    call(l, &list)
}

fn reference_scrambled(boxes: &Boxes, l: &mut Lent) -> u8 {
    let pipes = pipes(l.pipes.lent()).expect("a list that is taken");
    write(&mut l.packet_out, &scrambled(boxes, &pipes, l.odd, l.packet.lent()))
}

fn reference_descrambled(boxes: &Boxes, l: &mut Lent) -> u8 {
    let pipes = pipes(l.pipes.lent()).expect("a list that is taken");
    write(&mut l.packet_out, &descrambled(boxes, &pipes, l.packet.lent()))
}

pub const CALLS: &[Call] = &[
    Call {
        name: "scramble",
        method: "SP 800-38A over CIPHER",
        refusals: &[Packet, Sync, Pipes, Field, BitsToScramble],
        library: |l| with_lent_list(l, library_scrambled),
        reference: reference_scrambled,
    },
    Call {
        name: "scramble",
        method: "the same, others inverted",
        refusals: &[Packet, Sync, Pipes, Field, BitsToScramble],
        library: |l| with_others_inverted(l, library_scrambled),
        reference: reference_scrambled,
    },
    Call {
        name: "descramble",
        method: "SP 800-38A over INVCIPHER",
        refusals: &[Packet, Sync, Pipes, Field, BitsToDescramble],
        library: |l| with_lent_list(l, library_descrambled),
        reference: reference_descrambled,
    },
    Call {
        name: "descramble",
        method: "the same, others inverted",
        refusals: &[Packet, Sync, Pipes, Field, BitsToDescramble],
        library: |l| with_others_inverted(l, library_descrambled),
        reference: reference_descrambled,
    },
];
