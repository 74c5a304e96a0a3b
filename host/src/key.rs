//! Keys of three lengths, and what follows from each: how many rounds a run has, and how long its schedule is.

/// How many rounds a run has, by the length of its key.
///
/// ```
/// use slipgrease::{Rounds, Schedule};
///
/// assert_eq!(Schedule::expand(&[0; 24]).rounds(), Rounds::Twelve);
/// let each: Vec<_> = Rounds::all().map(|rounds| (rounds.number(), rounds.key_bytes(), rounds.schedule_bytes())).collect();
/// assert_eq!(each, [(10, 16, 176), (12, 24, 208), (14, 32, 240)]);
/// ```
#[derive(Clone, Copy, Debug, PartialEq, Eq, PartialOrd, Ord, Hash)]
pub enum Rounds {
    /// Those of AES-128, with a key of 16 bytes.
    Ten = 10,
    /// Those of AES-192, with a key of 24 bytes.
    Twelve = 12,
    /// Those of AES-256, with a key of 32 bytes.
    Fourteen = 14,
}

impl Rounds {
    /// From ten on.
    pub fn all() -> impl Iterator<Item = Rounds> {
        [Rounds::Ten, Rounds::Twelve, Rounds::Fourteen].into_iter()
    }

    /// Those with a key of so many bytes, if there is one.
    pub(crate) fn of_key(bytes: usize) -> Option<Rounds> {
        Rounds::all().find(|rounds| rounds.key_bytes() == bytes)
    }

    /// Those with a schedule of so many bytes, likewise.
    pub(crate) fn of_schedule(bytes: usize) -> Option<Rounds> {
        Rounds::all().find(|rounds| rounds.schedule_bytes() == bytes)
    }

    /// 10, 12 or 14.
    pub fn number(self) -> usize {
        self as usize
    }

    /// How long the key is: 16, 24 or 32 bytes, four for each round beyond the sixth.
    pub fn key_bytes(self) -> usize {
        4 * (self.number() - 6)
    }

    /// How long the schedule is: 176, 208 or 240 bytes, a round key for each round and one in front of the first.
    pub fn schedule_bytes(self) -> usize {
        16 * (self.number() + 1)
    }
}

/// The bytes of a key: 16, 24 or 32 of them.
pub trait Key: AsRef<[u8]> + Sealed {}

impl Key for [u8; 16] {}
impl Key for [u8; 24] {}
impl Key for [u8; 32] {}

/// The bytes of a schedule: 176, 208 or 240 of them.
pub trait RoundKeys: AsMut<[u8]> + Sealed {}

impl RoundKeys for [u8; 176] {}
impl RoundKeys for [u8; 208] {}
impl RoundKeys for [u8; 240] {}

/// Outside this crate it cannot be named, so that no other type becomes a key or a schedule.
pub trait Sealed {}

impl<const N: usize> Sealed for [u8; N] {}
