//! The refusals by number, name and meaning, and how a host sorts them.

use crate::calls;
use std::fmt;

/// Why a call was refused. A refused call has written nothing.
///
/// ```
/// use slipgrease::{Fault, Refusal};
///
/// let refusal = slipgrease::expand_key(&[0; 31], &mut [0; 240]).unwrap_err();
/// assert_eq!(refusal, Refusal::KeyLength);
/// assert_eq!((refusal.number(), refusal.name()), (1, "KEY_LENGTH"));
/// assert_eq!(refusal.fault(), Some(Fault::Caller));
/// assert_eq!(refusal.to_string(), "the key is not 16, 24 or 32 bytes long (reply 1, KEY_LENGTH)");
/// ```
#[derive(Clone, Copy, Debug, PartialEq, Eq, PartialOrd, Ord, Hash)]
#[non_exhaustive]
#[must_use = "a refused call has written nothing"]
pub enum Refusal {
    /// The key is not 16, 24 or 32 bytes long.
    KeyLength = 1,
    /// The schedule is not 176, 208 or 240 bytes long; the buffer for one, not as long as its key asks; in key wrap, not 240.
    ScheduleLength = 2,
    /// The input is not 16 bytes long; of many blocks, not 16 for each of 256 at most.
    InputLength = 3,
    /// The output is not 16 bytes long; of many blocks, not as long as the input.
    OutputLength = 4,
    /// The mask table is not 16 bytes long.
    MasksLength = 5,
    /// An offset is above 15.
    OffsetRange = 6,
    /// The form is not 0.
    FormUnknown = 7,
    /// The record is not 16 bytes long for each state.
    RecordLength = 8,
    /// 00 has no logarithm.
    NoLogarithm = 9,
    /// The power is above 254.
    PowerRange = 10,
    /// The sheet is not 21 bytes long; in version 2, not 22.
    SheetLength = 11,
    /// The sheet does not begin with its mark.
    MarkWrong = 12,
    /// The sheet's version is neither 1 nor 2.
    VersionUnknown = 13,
    /// There is not one offset for each block.
    OffsetsLength = 14,
    /// The step is 0, 2, 3 or above 15, or 1 in a sheet of version 2.
    StepWrong = 15,
    /// The key data is not 16 to 256 bytes long in a multiple of 8; in unwrapping, the buffer for it.
    KeyDataLength = 16,
    /// The wrapped key, or the buffer for it, is not 8 bytes longer than the key data.
    WrappedLength = 17,
    /// The register that unwrapping recovers is not a6 eight times: the wrapped key is damaged, or was wrapped under another key.
    Integrity = 18,
    /// The packet, or the buffer for it, is not 188 bytes long.
    PacketLength = 19,
    /// The packet does not begin with 47.
    SyncLost = 20,
    /// The packet's adaptation code is 00, or the length of its adaptation field does not fit the code.
    FieldWrong = 21,
    /// The list of pipes is not 3,486 bytes long, or has a PID outside 0010 to 1ffe, or the same PID twice.
    PipesWrong = 22,
    /// The packet's scrambling bits: not 00 in scrambling; in descrambling 01, or set over a payload that is too short for it.
    BitsWrong = 23,
    /// There are not 16 offsets, one for each byte of the block.
    OffsetPerByte = 24,
    /// The party holds twelve schedules of the bank already.
    PartyFull = 25,
    /// All sixteen places of the bank are held.
    BankFull = 26,
    /// The party has loaded nothing under this number, or has dropped it.
    NotLoaded = 27,
    /// The party of the bank is neither 0 nor 1.
    PartyUnknown = 28,
}

/// The name and the meaning of each, in the order of their numbers.
const REFUSALS: [(Refusal, &str, &str); 28] = [
    (Refusal::KeyLength, "KEY_LENGTH", "the key is not 16, 24 or 32 bytes long"),
    (
        Refusal::ScheduleLength,
        "SCHEDULE_LENGTH",
        "the schedule is not 176, 208 or 240 bytes long; the buffer for one, not as long as its key asks; in key wrap, not 240",
    ),
    (Refusal::InputLength, "INPUT_LENGTH", "the input is not 16 bytes long; of many blocks, not 16 for each of 256 at most"),
    (Refusal::OutputLength, "OUTPUT_LENGTH", "the output is not 16 bytes long; of many blocks, not as long as the input"),
    (Refusal::MasksLength, "MASKS_LENGTH", "the mask table is not 16 bytes long"),
    (Refusal::OffsetRange, "OFFSET_RANGE", "an offset is above 15"),
    (Refusal::FormUnknown, "FORM_UNKNOWN", "the form is not 0"),
    (Refusal::RecordLength, "RECORD_LENGTH", "the record is not 16 bytes long for each state"),
    (Refusal::NoLogarithm, "NO_LOGARITHM", "00 has no logarithm"),
    (Refusal::PowerRange, "POWER_RANGE", "the power is above 254"),
    (Refusal::SheetLength, "SHEET_LENGTH", "the sheet is not 21 bytes long; in version 2, not 22"),
    (Refusal::MarkWrong, "MARK_WRONG", "the sheet does not begin with its mark, 4d 53 4b"),
    (Refusal::VersionUnknown, "VERSION_UNKNOWN", "the sheet's version is neither 1 nor 2"),
    (Refusal::OffsetsLength, "OFFSETS_LENGTH", "there is not one offset for each block"),
    (Refusal::StepWrong, "STEP_WRONG", "the step is 0, 2, 3 or above 15, or 1 in a sheet of version 2"),
    (Refusal::KeyDataLength, "KEY_DATA_LENGTH", "the key data is not 16 to 256 bytes long in a multiple of 8"),
    (Refusal::WrappedLength, "WRAPPED_LENGTH", "the wrapped key is not 8 bytes longer than the key data"),
    (Refusal::Integrity, "INTEGRITY", "the register that unwrapping recovers is not a6a6a6a6a6a6a6a6"),
    (Refusal::PacketLength, "PACKET_LENGTH", "the packet is not 188 bytes long"),
    (Refusal::SyncLost, "SYNC_LOST", "the packet does not begin with 47"),
    (Refusal::FieldWrong, "FIELD_WRONG", "the adaptation code is 00, or the length of the field does not fit the code"),
    (
        Refusal::PipesWrong,
        "PIPES_WRONG",
        "the list is not 3,486 bytes long, or has a PID outside 0010 to 1ffe, or the same PID twice",
    ),
    (Refusal::BitsWrong, "BITS_WRONG", "the scrambling bits do not allow what is to be done"),
    (Refusal::OffsetPerByte, "OFFSET_PER_BYTE", "there are not 16 offsets, one for each byte of the block"),
    (Refusal::PartyFull, "PARTY_FULL", "the party holds twelve schedules already"),
    (Refusal::BankFull, "BANK_FULL", "all sixteen places are held"),
    (Refusal::NotLoaded, "NOT_LOADED", "the party has loaded nothing under this number, or has dropped it"),
    (Refusal::PartyUnknown, "PARTY_UNKNOWN", "the party is neither 0 nor 1"),
];

impl Refusal {
    /// The refusal with a number, if there is one.
    ///
    /// ```
    /// use slipgrease::Refusal;
    /// assert_eq!(Refusal::from_number(13), Some(Refusal::VersionUnknown));
    /// assert_eq!(Refusal::from_number(0), None);
    /// ```
    pub fn from_number(number: u8) -> Option<Refusal> {
        REFUSALS.iter().map(|row| row.0).find(|refusal| refusal.number() == number)
    }

    /// The reply number, 1 to 28.
    pub fn number(self) -> u8 {
        self as u8
    }

    /// The name that the number has in the library's sources and in the header for C, there behind `SLIPGREASE_REPLY_`.
    pub fn name(self) -> &'static str {
        self.row().1
    }

    /// What the number means.
    pub fn meaning(self) -> &'static str {
        self.row().2
    }

    /// Whose fault it is, by the library's own sorter.
    #[must_use]
    pub fn fault(self) -> Option<Fault> {
        sort_reply(self.number())
    }

    fn row(self) -> &'static (Refusal, &'static str, &'static str) {
        &REFUSALS[usize::from(self.number()) - 1]
    }

    /// What a reply number says of a call: done, or why not.
    pub(crate) fn check(number: u8) -> Result<(), Refusal> {
        match Refusal::from_number(number) {
            None if number == 0 => Ok(()),
            None => unreachable!("the library answered {number}, which no promise names"),
            Some(refusal) => Err(refusal),
        }
    }
}

impl fmt::Display for Refusal {
    fn fmt(&self, f: &mut fmt::Formatter) -> fmt::Result {
        write!(f, "{} (reply {}, {})", self.meaning(), self.number(), self.name())
    }
}

impl std::error::Error for Refusal {}

/// The refusal with a number.
///
/// ```
/// use slipgrease::{Refusal, UnknownReply};
///
/// assert_eq!(Refusal::try_from(13), Ok(Refusal::VersionUnknown));
/// assert_eq!(u8::from(Refusal::VersionUnknown), 13);
/// assert_eq!(Refusal::try_from(0), Err(UnknownReply(0)));
/// ```
impl TryFrom<u8> for Refusal {
    type Error = UnknownReply;

    fn try_from(number: u8) -> Result<Refusal, UnknownReply> {
        Refusal::from_number(number).ok_or(UnknownReply(number))
    }
}

impl From<Refusal> for u8 {
    fn from(refusal: Refusal) -> u8 {
        refusal.number()
    }
}

/// A number that is no refusal's.
#[derive(Clone, Copy, Debug, PartialEq, Eq, Hash)]
pub struct UnknownReply(pub u8);

impl fmt::Display for UnknownReply {
    fn fmt(&self, f: &mut fmt::Formatter) -> fmt::Result {
        write!(f, "no refusal has the number {}", self.0)
    }
}

impl std::error::Error for UnknownReply {}

/// Whose fault a refusal is.
#[derive(Clone, Copy, Debug, PartialEq, Eq, PartialOrd, Ord, Hash)]
pub enum Fault {
    /// What was handed over has the wrong shape.
    Caller,
    /// What was handed over has the right shape and cannot be taken.
    Data,
}

/// Sorts any reply number as a module's host does: `None` is to go on.
///
/// ```
/// use slipgrease::{sort_reply, Fault};
/// assert_eq!(sort_reply(0), None);
/// assert_eq!(sort_reply(8), Some(Fault::Caller));
/// assert_eq!(sort_reply(9), Some(Fault::Data));
/// assert_eq!(sort_reply(17), Some(Fault::Caller));
/// assert_eq!(sort_reply(20), Some(Fault::Data));
/// ```
#[must_use]
pub fn sort_reply(number: u8) -> Option<Fault> {
    match calls::sort_reply(number) {
        0 => None,
        2 => Some(Fault::Data),
        _ => Some(Fault::Caller),
    }
}

#[cfg(test)]
mod tests {
    use super::REFUSALS;

    /// The library's own list, from the sources beside this crate: `KeyLength = 1,` is KEY_LENGTH there.
    #[test]
    fn numbers_and_names_are_the_library_s() {
        let source = include_str!("../../crates/aes/src/reply.rt");
        let listed: Vec<(String, u8)> = source
            .lines()
            .filter_map(|line| line.strip_prefix("    ")?.strip_suffix(',')?.split_once(" = "))
            .map(|(name, number)| (in_capitals(name), number.parse().unwrap()))
            .collect();
        let mine: Vec<(String, u8)> = REFUSALS.iter().map(|row| (row.1.to_string(), row.0.number())).collect();
        assert_eq!(mine, listed);
    }

    fn in_capitals(name: &str) -> String {
        let mut words = String::new();
        for letter in name.chars() {
            if letter.is_uppercase() && !words.is_empty() {
                words.push('_');
            }
            words.push(letter.to_ascii_uppercase());
        }
        words
    }

    #[test]
    fn each_row_is_found_by_its_number() {
        for (index, row) in REFUSALS.iter().enumerate() {
            assert_eq!(usize::from(row.0.number()), index + 1);
        }
    }
}
