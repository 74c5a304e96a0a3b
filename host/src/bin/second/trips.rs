//! There and back: each call that decrypts must open what any that encrypts has sealed, and the reverse, and each that unwraps what
//! any that wraps has wrapped; each with masks, offsets and a step of its own. And each packet that is scrambled must come back.

use crate::cases::draw;
use crate::cipher::Boxes;
use crate::lent::Lent;
use crate::random::Random;
use crate::replies::{record_length, Cause};
use crate::report::{Report, Tally};
use slipgrease::calls;

/// A call that makes bytes of bytes under a schedule or a list of pipes. Masks, offsets, step and parity are those lent, as far as
/// it takes them. Refused, it gives nothing.
struct Maker {
    name: &'static str,
    make: Make,
}

type Make = fn(&[u8], &[u8], &Lent) -> Option<Vec<u8>>;

const ENCRYPTING: [Maker; 5] = [
    Maker { name: "encrypt", make: |w, block, _| made(16, |to| calls::encrypt(w, block, to)) },
    Maker {
        name: "encrypt_published",
        make: |w, block, l| made(16, |to| calls::encrypt_published(w, block, to, l.byte_offsets.lent(), l.step, 0)),
    },
    Maker {
        name: "encrypt_blocks",
        make: |w, block, l| made(16, |to| calls::encrypt_blocks(w, block, to, &[l.offset], l.step, 0)),
    },
    Maker {
        name: "encrypt_masked",
        make: |w, block, l| made(16, |to| calls::encrypt_masked(w, block, to, l.masks.lent(), l.byte_offsets.lent(), l.step, 0)),
    },
    Maker {
        name: "record_masked",
        make: |w, block, l| {
            let (masks, offsets) = (l.masks.lent(), l.byte_offsets.lent());
            last_recorded(Cause::States, w, |to| calls::record_masked(w, block, masks, offsets, l.step, to))
        },
    },
];

const DECRYPTING: [Maker; 4] = [
    Maker { name: "decrypt", make: |w, block, _| made(16, |to| calls::decrypt(w, block, to)) },
    Maker {
        name: "decrypt_published",
        make: |w, block, l| made(16, |to| calls::decrypt_published(w, block, to, l.byte_offsets.lent(), l.step)),
    },
    Maker {
        name: "decrypt_masked",
        make: |w, block, l| made(16, |to| calls::decrypt_masked(w, block, to, l.masks.lent(), l.byte_offsets.lent(), l.step)),
    },
    Maker {
        name: "record_masked_decryption",
        make: |w, block, l| {
            let (masks, offsets) = (l.masks.lent(), l.byte_offsets.lent());
            last_recorded(Cause::DecryptionStates, w, |to| calls::record_masked_decryption(w, block, masks, offsets, l.step, to))
        },
    },
];

const WRAPPING: [Maker; 2] = [
    Maker { name: "wrap", make: |w, key, _| made(key.len() + 8, |to| calls::wrap(w, key, to)) },
    Maker { name: "wrap_masked", make: |w, key, l| made(key.len() + 8, |to| calls::wrap_masked(w, key, to, l.offset)) },
];

const UNWRAPPING: [Maker; 2] = [
    Maker { name: "unwrap", make: |w, wrapped, _| made(wrapped.len() - 8, |to| calls::unwrap(w, wrapped, to)) },
    Maker {
        name: "unwrap_masked",
        make: |w, wrapped, l| made(wrapped.len() - 8, |to| calls::unwrap_masked(w, wrapped, to, l.offset)),
    },
];

const SCRAMBLING: Maker =
    Maker { name: "scramble", make: |list, packet, l| made(188, |to| calls::scramble(packet, to, list, l.odd)) };

const DESCRAMBLING: Maker =
    Maker { name: "descramble", make: |list, packet, _| made(188, |to| calls::descramble(packet, to, list)) };

/// What goes there and back: the refusals of a call that takes it, under what it goes, and its bytes.
struct Load {
    order: &'static [Cause],
    under: fn(&Lent) -> &[u8],
    body: fn(&Lent) -> &[u8],
}

const BLOCK: Load = Load { order: &[], under: |l| l.schedule.lent(), body: |l| l.input.lent() };
const KEY_DATA: Load = Load { order: &[Cause::FullSchedule], under: |l| l.schedule.lent(), body: |l| l.key_data.lent() };
const PACKET: Load =
    Load { order: &[Cause::Packet, Cause::BitsToScramble], under: |l| l.pipes.lent(), body: |l| l.packet.lent() };

/// What a call writes to so many bytes.
fn made(length: usize, call: impl Fn(&mut [u8]) -> u8) -> Option<Vec<u8>> {
    let mut written = vec![0; length];
    (call(&mut written) == 0).then_some(written)
}

/// The last block of the record that a call writes under a schedule. The cause is the one for which it refuses other lengths.
fn last_recorded(length: Cause, schedule: &[u8], call: impl Fn(&mut [u8]) -> u8) -> Option<Vec<u8>> {
    let states = made(record_length(&[length], schedule.len())?, call)?;
    Some(states[states.len() - 16..].to_vec())
}

/// A row for each call that opens, and for each that decrypts another row the other way about. Spoiled is the call of which every
/// case must be found to differ.
pub fn compare(report: &mut Report, random: &mut Random, boxes: &Boxes, cases: usize, spoiled: &str) {
    let mut row = |opening: &Maker, what: &str, trips: Vec<(&Maker, &Maker)>, load: &Load| {
        let mut tally = Tally::default();
        for trip in trips.iter().cycle().take(cases) {
            one(&mut tally, random, boxes, trip, load, opening.name == spoiled);
        }
        report.row(opening.name, what, tally);
    };
    for opening in &DECRYPTING {
        let there_and_back = ENCRYPTING.iter().map(|sealing| (sealing, opening)).collect();
        let back_and_there = ENCRYPTING.iter().map(|sealing| (opening, sealing)).collect();
        row(opening, "a block that any call sealed", there_and_back, &BLOCK);
        row(opening, "a block, sealed again by any", back_and_there, &BLOCK);
    }
    for opening in &UNWRAPPING {
        let there_and_back = WRAPPING.iter().map(|wrapping| (wrapping, opening)).collect();
        row(opening, "a key that any call wrapped", there_and_back, &KEY_DATA);
    }
    row(&DESCRAMBLING, "a packet that scramble took", vec![(&SCRAMBLING, &DESCRAMBLING)], &PACKET);
}

/// Whether bytes come back from one call and then another.
fn one(tally: &mut Tally, random: &mut Random, boxes: &Boxes, (first, second): &(&Maker, &Maker), load: &Load, spoiled: bool) {
    let [lent, other] = [(); 2].map(|()| draw(random, boxes, load.order, &[]));
    let (under, there) = ((load.under)(&lent), (load.body)(&lent));
    let mut expected = there.to_vec();
    if spoiled {
        expected[random.below(there.len())] ^= 1 << random.below(8);
    }
    let back = (first.make)(under, there, &lent).and_then(|made| (second.make)(under, &made, &other));
    let same = back.as_ref() == Some(&expected);
    if !same && !spoiled && tally.differ == 0 {
        println!("{} and then {}, case {}: expected {expected:?}, given {back:?}", first.name, second.name, tally.compared);
    }
    tally.add(same);
}
