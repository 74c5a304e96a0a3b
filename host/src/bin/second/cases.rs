//! Draws what a call is lent, with the causes of refusal that are asked for and no others.

mod counts;
mod packets;
mod wraps;

pub use counts::counted_inside;
pub use packets::packet;

use crate::cipher::{expand_key, Boxes};
use crate::counts::ROUNDS;
use crate::lent::{Buffer, Lent};
use crate::masked::PUBLISHED;
use crate::random::Random;
use crate::replies::{record_length, takes_many, Cause, KEYS, SCHEDULES};

/// The lengths that calls take: each is the wrong one for another buffer.
const LENGTHS: [usize; 16] = [16, 21, 22, 24, 32, 176, 188, 208, 240, 264, 816, 976, 1136, 1168, 1360, 3486];

/// For a call that has such an order of refusals. Broken has the causes that are wanted.
pub fn draw(random: &mut Random, boxes: &Boxes, order: &[Cause], broken: &[Cause]) -> Lent {
    let wants = |cause: Cause| broken.contains(&cause);
    let many = takes_many(order);
    let key = one_of(random, &KEYS, wants(Cause::Key));
    let schedule = schedule(random, boxes, order, key.len(), wants);
    let input =
        if many { blocks(random, wants(Cause::Blocks), wants(Cause::AnyOffset)) } else { bytes(random, 16, wants(Cause::Input)) };
    let output = bytes(random, if many { input.len() } else { 16 }, wants(Cause::Output) || wants(Cause::Room));
    let offsets = offsets(random, input.len() / 16, wants(Cause::OffsetCount), wants(Cause::AnyOffset));
    let byte_offsets = byte_offsets(random, wants(Cause::ByteOffsetCount), wants(Cause::ByteOffset));
    let masks = if wants(Cause::Masks) { bytes(random, 16, true) } else { masks(random).to_vec() };
    let right = record_length(order, schedule.len()).unwrap_or(1136);
    let states = bytes(random, right, wants(Cause::States) || wants(Cause::DecryptionStates));
    let step = step(random, wants(Cause::Step));
    let sheet = sheet(random, wants);
    let blank = bytes(random, if step == 1 { 21 } else { 22 }, wants(Cause::BlankLength));
    let (key_data, wrapped) = wraps::pair(random, boxes, &schedule, order, wants);
    let [packet, packet_out, pipes] = packets::three(random, boxes, order, wants);
    let [key, schedule, input, output, masks, states, sheet] =
        [key, schedule, input, output, masks, states, sheet].map(|body| Buffer::new(random, &body));
    let [blank, offsets, byte_offsets, key_data, wrapped, packet, packet_out, pipes] =
        [blank, offsets, byte_offsets, key_data, wrapped, packet, packet_out, pipes].map(|body| Buffer::new(random, &body));
    let offset = if wants(Cause::Offset) { 16 + random.below(240) } else { random.below(16) } as u8;
    let form = form(random, wants(Cause::Form));
    let odd = random.below(2) == 1;
    let (counted, round) = (counts::counted(random), random.below(ROUNDS) as u8);
    Lent {
        key,
        schedule,
        input,
        output,
        masks,
        states,
        sheet,
        blank,
        offsets,
        byte_offsets,
        key_data,
        wrapped,
        packet,
        packet_out,
        pipes,
        offset,
        step,
        form,
        odd,
        counted,
        round,
    }
}

/// Empty, one off, twice as long, a length that another buffer has, or any.
fn wrong_length(random: &mut Random, right: usize) -> usize {
    loop {
        let length = match random.below(6) {
            0 => 0,
            1 => right.saturating_sub(1),
            2 => right + 1,
            3 => 2 * right,
            4 => LENGTHS[random.below(LENGTHS.len())],
            _ => random.below(2000),
        };
        if length != right {
            return length;
        }
    }
}

fn bytes(random: &mut Random, right: usize, wrong: bool) -> Vec<u8> {
    let length = if wrong { wrong_length(random, right) } else { right };
    content(random, length)
}

/// As long as one of some lengths, each as often; wrong, as none of them.
fn one_of(random: &mut Random, lengths: &[usize], wrong: bool) -> Vec<u8> {
    let mut length = lengths[random.below(lengths.len())];
    while wrong && lengths.contains(&length) {
        length = wrong_length(random, length);
    }
    content(random, length)
}

/// All 00, all ff, one bit, or random.
fn content(random: &mut Random, length: usize) -> Vec<u8> {
    match random.below(10) {
        0 => vec![0x00; length],
        1 => vec![0xff; length],
        2 if length > 0 => {
            let mut bytes = vec![0; length];
            bytes[random.below(length)] = 1 << random.below(8);
            bytes
        }
        _ => random.bytes(length),
    }
}

/// Mostly a few blocks, at times none or all that are taken; wrong, not whole ones, or too many.
fn blocks(random: &mut Random, wrong: bool, at_least_one: bool) -> Vec<u8> {
    let length = match (wrong, random.below(128)) {
        (true, 0..=31) => [1, 15, 17, 4095, 4097, 4112][random.below(6)],
        (true, 32..=63) => 16 * (257 + random.below(8)),
        (true, _) => 16 * random.below(8) + 1 + random.below(15),
        (false, 0) => 16 * 256,
        (false, 1) => 16 * (1 + random.below(256)),
        (false, 2..=15) if !at_least_one => 0,
        _ => 16 * (1 + random.below(6)),
    };
    content(random, length)
}

/// An offset for each block; wrong, one of them above 15, be it the last alone.
fn offsets(random: &mut Random, blocks: usize, length: bool, range: bool) -> Vec<u8> {
    let length = if length { wrong_length(random, blocks) } else { blocks };
    let mut offsets: Vec<u8> = (0..length).map(|_| random.below(16) as u8).collect();
    if range {
        one_too_great(random, &mut offsets);
    }
    offsets
}

fn one_too_great(random: &mut Random, offsets: &mut [u8]) {
    if let Some(last) = offsets.len().checked_sub(1) {
        let places = [0, last, random.below(offsets.len())];
        offsets[places[random.below(3)]] = if random.below(2) == 0 { 16 } else { 16 + random.below(240) as u8 };
    }
}

/// An offset for each byte: mostly each drawn by itself; at times those of one offset, or those but for one byte, or all the same.
fn byte_offsets(random: &mut Random, length: bool, range: bool) -> Vec<u8> {
    let length = if length { wrong_length(random, 16) } else { 16 };
    let (kind, first) = (random.below(8), random.below(16));
    let mut offsets: Vec<u8> = (0..length)
        .map(|i| match kind {
            0 | 1 => (first + i) % 16,
            2 => first,
            _ => random.below(16),
        })
        .map(|offset| offset as u8)
        .collect();
    if kind == 1 && length > 0 {
        offsets[random.below(length)] = random.below(16) as u8;
    }
    if range {
        one_too_great(random, &mut offsets);
    }
    offsets
}

/// Often 1, for which the library has its boxes stored; wrong, 0, 2, 3 or above 15.
pub fn step(random: &mut Random, wrong: bool) -> u8 {
    match (wrong, random.below(4)) {
        (true, n) => [0, 2, 3, 16 + random.below(240) as u8][n],
        (false, 0) => 1,
        (false, _) => 4 + random.below(12) as u8,
    }
}

/// 0; wrong, often 1, which was taken once.
fn form(random: &mut Random, wrong: bool) -> u8 {
    match (wrong, random.below(2)) {
        (true, 0) => 1,
        (true, _) => 2 + random.below(254) as u8,
        (false, _) => 0,
    }
}

/// That of a key, or any bytes; where one length alone is right, often as long as that of another key.
fn schedule(random: &mut Random, boxes: &Boxes, order: &[Cause], key: usize, wants: impl Fn(Cause) -> bool) -> Vec<u8> {
    let which = match KEYS.iter().position(|&length| length == key) {
        Some(which) if order.contains(&Cause::ScheduleOfKey) => which,
        _ if order.contains(&Cause::FullSchedule) => 2,
        _ => random.below(3),
    };
    let (key, right) = (KEYS[which], SCHEDULES[which]);
    let other = SCHEDULES[(which + 1 + random.below(2)) % 3];
    let wrong_alone = wants(Cause::ScheduleOfKey) || wants(Cause::FullSchedule);
    match random.below(4) {
        _ if wants(Cause::Schedule) => one_of(random, &SCHEDULES, true),
        0 | 1 if wrong_alone => content(random, other),
        _ if wrong_alone => bytes(random, right, true),
        0 => expand_key(boxes, &random.bytes(key)),
        _ => content(random, right),
    }
}

/// The published masks, one mask for all, sixteen different ones, two that are equal, fit ones, nearly fit ones, or random.
fn masks(random: &mut Random) -> [u8; 16] {
    let (first, step) = (random.byte(), random.byte() | 1);
    let mut masks: [u8; 16] = std::array::from_fn(|i| first.wrapping_add(step.wrapping_mul(i as u8)));
    match random.below(9) {
        0 => return PUBLISHED,
        1 => return [0; 16],
        2 => return [first; 16],
        3 => {}
        4 => masks[random.below(16)] = masks[random.below(16)],
        5 => masks = fit(random),
        6 => masks = any_two_even(random),
        7 => {
            masks = fit(random);
            masks[random.below(16)] ^= 1 << random.below(8);
        }
        _ => masks = std::array::from_fn(|_| random.byte()),
    }
    masks
}

/// The published masks with their places and their bits turned, and a byte added to all.
fn fit(random: &mut Random) -> [u8; 16] {
    let (places, bits, added) = (random.below(16), random.below(8) as u32, random.byte());
    let mut masks = PUBLISHED.map(|mask| mask.rotate_left(bits) ^ added);
    masks.rotate_left(places);
    masks
}

/// Fit masks in which one bit becomes the sum of two others: any two bits still show each of their four patterns four times.
fn any_two_even(random: &mut Random) -> [u8; 16] {
    let turned = random.below(8) as u32;
    let summed = |mask: u8| mask & !1 | (mask >> 1 ^ mask >> 2) & 1;
    fit(random).map(|mask| summed(mask).rotate_left(turned))
}

/// "MSK", version 1 or 2, sixteen masks and in version 2 a step, damaged as asked. A wrong step is there also where the version or
/// the length is wrong, unless the sheet ends before it.
fn sheet(random: &mut Random, wants: impl Fn(Cause) -> bool) -> Vec<u8> {
    let version = if wants(Cause::SheetStep) { 2 } else { 1 + random.below(2) };
    let mut sheet = [b"MSK\x00", &[version as u8][..], &masks(random)].concat();
    if version == 2 {
        sheet.push(sheet_step(random, wants(Cause::SheetStep)));
    }
    let right = sheet.len();
    if wants(Cause::Mark) {
        sheet[random.below(3)] ^= 1 + random.below(255) as u8;
    }
    while wants(Cause::Version) && (sheet[3..5] == [0, 1] || sheet[3..5] == [0, 2]) {
        let versions = [[0, 0], [0, 3], [1, 0], [1, 1], [1, 2], [2, 0], [random.byte(), random.byte()]];
        sheet[3..5].copy_from_slice(&versions[random.below(versions.len())]);
    }
    if wants(Cause::SheetLength) {
        let (length, filler) = (wrong_length(random, right).max(5), random.byte());
        sheet.resize(length, filler);
    }
    if wants(Cause::SheetHead) {
        sheet.truncate(random.below(5));
    }
    sheet
}

/// The step of version 2; wrong, 0 to 3 or above 15.
fn sheet_step(random: &mut Random, wrong: bool) -> u8 {
    match (wrong, random.below(5)) {
        (true, n) => [0, 1, 2, 3, 16 + random.below(240) as u8][n],
        (false, _) => 4 + random.below(12) as u8,
    }
}
