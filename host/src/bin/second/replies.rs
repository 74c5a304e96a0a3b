//! The scope's table of replies, with what the requests have added to it, for the calls that are lent buffers: what causes each
//! number.

use crate::cipher::Boxes;
use crate::lent::Lent;
use crate::packet::{has_block, payload_start, pipe_of, pipes, Header, PACKET, SYNC};
use crate::wrap::{unwrapped, INITIAL};

/// What a call can find wrong. A reply number can have several causes: a sheet is measured twice where it is read, for many
/// blocks lengths are measured otherwise than for one, there can be one offset or several, a schedule is measured by its key or by
/// itself, and a record has the length of its direction and its schedule.
#[derive(Clone, Copy, Debug, PartialEq)]
pub enum Cause {
    Key,
    /// Of a key: a buffer that is not as long as its schedule.
    ScheduleOfKey,
    /// Of a run: as long as no key's schedule.
    Schedule,
    /// Of key wrap: not as long as the schedule of a 32-byte key.
    FullSchedule,
    Input,
    Output,
    /// Of many blocks: not whole ones, or too many.
    Blocks,
    /// Of many blocks: output and input are not equally long.
    Room,
    Masks,
    Offset,
    /// Of many blocks: the offset of any.
    AnyOffset,
    /// Of many blocks: not one offset for each.
    OffsetCount,
    /// Of one block: the offset of any byte.
    ByteOffset,
    /// Of one block: not one offset for each byte.
    ByteOffsetCount,
    Step,
    Form,
    States,
    /// Of a decryption, whose record is longer than that of an encryption with the same schedule.
    DecryptionStates,
    /// A sheet to read that is too short for mark and version.
    SheetHead,
    Mark,
    Version,
    /// A sheet to read that is not as long as its version.
    SheetLength,
    SheetStep,
    /// A buffer for a sheet that is not as long as the step asks.
    BlankLength,
    KeyData,
    /// Not 8 bytes longer than the key data.
    Wrapped,
    /// Of a wrapped key whose lengths are right: another register than the initial value.
    Integrity,
    /// A packet, or the buffer for it, of another length than a packet has.
    Packet,
    Sync,
    /// A list of another length than seven pipes have, or with PIDs that it may not have.
    Pipes,
    /// Of a listed PID: an adaptation code and a length that do not fit each other.
    Field,
    /// Of a listed PID: scrambling bits that are set already.
    BitsToScramble,
    /// Of a listed PID: scrambling bits that are reserved, or are set where nothing can have been scrambled.
    BitsToDescramble,
}

/// The number of the first cause in a call's order that is there, and 0 where none is.
pub fn reply(order: &[Cause], boxes: &Boxes, lent: &Lent) -> u8 {
    order.iter().find(|cause| cause.is_there(boxes, lent)).map_or(0, |cause| cause.number())
}

/// Whether a run takes a step.
pub fn takes_step(step: u8) -> bool {
    !matches!(step, 0 | 2 | 3 | 16..=255)
}

/// Whether a call with these refusals takes many blocks.
pub fn takes_many(order: &[Cause]) -> bool {
    order.contains(&Cause::Blocks)
}

/// Whether a call with these refusals takes an offset for each byte of a block.
pub fn takes_byte_offsets(order: &[Cause]) -> bool {
    order.contains(&Cause::ByteOffsetCount)
}

/// Whether a call with these refusals opens a wrapped key.
pub fn opens(order: &[Cause]) -> bool {
    order.contains(&Cause::Integrity)
}

/// Whether a call with these refusals takes a packet.
pub fn takes_packets(order: &[Cause]) -> bool {
    order.contains(&Cause::Packet)
}

/// Whether a call with these refusals descrambles a packet.
pub fn descrambles(order: &[Cause]) -> bool {
    order.contains(&Cause::BitsToDescramble)
}

/// Whether key data may be so long.
pub fn takes_key_data(length: usize) -> bool {
    (2..=32).any(|values| length == 8 * values)
}

/// How long a key can be.
pub const KEYS: [usize; 3] = [16, 24, 32];

/// How long the schedules of these keys are, and the records of runs with them.
pub const SCHEDULES: [usize; 3] = [176, 208, 240];
const RECORDS: [usize; 3] = [816, 976, 1136];
const DECRYPTION_RECORDS: [usize; 3] = [976, 1168, 1360];

/// How long the schedule is of a key that is so long, where one can be.
pub fn schedule_length(key: usize) -> Option<usize> {
    KEYS.iter().position(|&length| length == key).map(|which| SCHEDULES[which])
}

/// How long the record is of a call with these refusals, with a schedule that is so long, where one can be.
pub fn record_length(order: &[Cause], schedule: usize) -> Option<usize> {
    let records = if order.contains(&Cause::DecryptionStates) { DECRYPTION_RECORDS } else { RECORDS };
    SCHEDULES.iter().position(|&length| length == schedule).map(|which| records[which])
}

impl Cause {
    pub fn number(self) -> u8 {
        match self {
            Cause::Key => 1,
            Cause::ScheduleOfKey | Cause::Schedule | Cause::FullSchedule => 2,
            Cause::Input | Cause::Blocks => 3,
            Cause::Output | Cause::Room => 4,
            Cause::Masks => 5,
            Cause::Offset | Cause::AnyOffset | Cause::ByteOffset => 6,
            Cause::Form => 7,
            Cause::States | Cause::DecryptionStates => 8,
            Cause::SheetHead | Cause::SheetLength | Cause::BlankLength => 11,
            Cause::Mark => 12,
            Cause::Version => 13,
            Cause::OffsetCount => 14,
            Cause::Step | Cause::SheetStep => 15,
            Cause::KeyData => 16,
            Cause::Wrapped => 17,
            Cause::Integrity => 18,
            Cause::Packet => 19,
            Cause::Sync => 20,
            Cause::Field => 21,
            Cause::Pipes => 22,
            Cause::BitsToScramble | Cause::BitsToDescramble => 23,
            Cause::ByteOffsetCount => 24,
        }
    }

    /// Of a sheet, a wrapped key or a packet a later cause is looked for only where no earlier one is there.
    fn is_there(self, boxes: &Boxes, lent: &Lent) -> bool {
        let (input, offsets) = (lent.input.lent(), lent.offsets.lent());
        let (sheet, blank) = (lent.sheet.lent(), lent.blank.lent());
        let (key_data, wrapped) = (lent.key_data.lent(), lent.wrapped.lent());
        let packet = lent.packet.lent();
        let (key, schedule, states) = (lent.key.lent().len(), lent.schedule.lent().len(), lent.states.lent().len());
        match self {
            Cause::Key => !KEYS.contains(&key),
            Cause::ScheduleOfKey => Some(schedule) != schedule_length(key),
            Cause::Schedule => !SCHEDULES.contains(&schedule),
            Cause::FullSchedule => schedule != 240,
            Cause::Input => input.len() != 16,
            Cause::Output => lent.output.lent().len() != 16,
            Cause::Blocks => input.len() % 16 != 0 || input.len() > 256 * 16,
            Cause::Room => lent.output.lent().len() != input.len(),
            Cause::Masks => lent.masks.lent().len() != 16,
            Cause::Offset => lent.offset > 15,
            Cause::AnyOffset => offsets.iter().any(|&offset| offset > 15),
            Cause::OffsetCount => offsets.len() != input.len() / 16,
            Cause::ByteOffset => lent.byte_offsets.lent().iter().any(|&offset| offset > 15),
            Cause::ByteOffsetCount => lent.byte_offsets.lent().len() != 16,
            Cause::Step => !takes_step(lent.step),
            Cause::Form => lent.form != 0,
            Cause::States | Cause::DecryptionStates => Some(states) != record_length(&[self], schedule),
            Cause::SheetHead => sheet.len() < 5,
            Cause::Mark => !sheet.starts_with(b"MSK"),
            Cause::Version => sheet[3..5] != [0, 1] && sheet[3..5] != [0, 2],
            Cause::SheetLength => sheet.len() != if sheet[4] == 1 { 21 } else { 22 },
            Cause::SheetStep => sheet[4] == 2 && matches!(sheet[21], 0..=3 | 16..=255),
            Cause::BlankLength => blank.len() != if lent.step == 1 { 21 } else { 22 },
            Cause::KeyData => !takes_key_data(key_data.len()),
            Cause::Wrapped => wrapped.len() != key_data.len() + 8,
            Cause::Integrity => unwrapped(boxes, lent.schedule.lent(), wrapped).0 != INITIAL,
            Cause::Packet => packet.len() != PACKET || lent.packet_out.lent().len() != PACKET,
            Cause::Sync => Header::read(packet).sync != SYNC,
            Cause::Pipes => pipes(lent.pipes.lent()).is_none(),
            Cause::Field => lent.is_listed() && payload_start(packet).is_none(),
            Cause::BitsToScramble => lent.is_listed() && Header::read(packet).scrambling != 0b00,
            Cause::BitsToDescramble => match Header::read(packet).scrambling {
                0b00 => false,
                0b01 => lent.is_listed(),
                _ => lent.is_listed() && !has_block(packet),
            },
        }
    }
}

impl Lent {
    /// Whether the list, which is taken, has the packet's PID.
    fn is_listed(&self) -> bool {
        pipes(self.pipes.lent()).map_or(false, |pipes| pipe_of(&pipes, self.packet.lent()).is_some())
    }
}
