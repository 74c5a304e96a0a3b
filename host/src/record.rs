//! The recorded states of a run, and the points at which they are taken.

mod point;

pub use point::{Point, Stage};

use crate::key::Rounds;
use crate::schedule::Block;
use crate::wiped::Wiped;
use std::fmt;

/// Which way a run goes.
#[derive(Clone, Copy, Debug, PartialEq, Eq, PartialOrd, Ord, Hash)]
pub enum Direction {
    /// From the plaintext to the ciphertext: 51, 61 or 71 states.
    Encryption,
    /// From the ciphertext to the plaintext: 61, 73 or 85 states.
    Decryption,
}

impl Direction {
    /// How many states a record has: five for each round, in a decryption six, and one more.
    ///
    /// ```
    /// use slipgrease::{Direction, Rounds};
    ///
    /// let states = |way: Direction| Rounds::all().map(|rounds| way.states(rounds)).collect::<Vec<_>>();
    /// assert_eq!((states(Direction::Encryption), states(Direction::Decryption)), (vec![51, 61, 71], vec![61, 73, 85]));
    /// ```
    pub fn states(self, rounds: Rounds) -> usize {
        match self {
            Direction::Encryption => 1 + 5 * rounds.number(),
            Direction::Decryption => 1 + 6 * rounds.number(),
        }
    }

    /// The points at which they are taken, in their order.
    pub fn points(self, rounds: Rounds) -> impl Iterator<Item = Point> {
        (0..self.states(rounds)).map(move |number| Point::new(self, rounds, number))
    }
}

/// encryption or decryption.
///
/// ```
/// use slipgrease::Direction;
///
/// assert_eq!([Direction::Encryption, Direction::Decryption].map(|way| way.to_string()), ["encryption", "decryption"]);
/// ```
impl fmt::Display for Direction {
    fn fmt(&self, f: &mut fmt::Formatter) -> fmt::Result {
        f.pad(match self {
            Direction::Encryption => "encryption",
            Direction::Decryption => "decryption",
        })
    }
}

/// The states of a run, sixteen bytes for each.
///
/// A record gives the key away, a masked one as much as a plain one: two states with one mask between which a round key was added
/// differ in just that key. It is to be kept as the key is. Its `Debug` tells nothing of its bytes, and they are wiped when it is
/// dropped.
///
/// ```
/// use slipgrease::{Masks, Offset, Schedule, Step};
///
/// let key: [u8; 32] = std::array::from_fn(|i| i as u8);
/// let record = Schedule::expand(&key).record_masked(&[9; 16], &Masks::PUBLISHED, Offset::new(3).unwrap(), Step::ONE);
/// for i in 0..16 {
///     assert_eq!(record.state(0)[i] ^ record.state(1)[i], key[i]);
///     assert_eq!(record.state(5)[i] ^ record.state(6)[i], key[16 + i]);
/// }
/// assert_eq!(format!("{record:?}"), "Record { direction: Encryption, .. }");
/// ```
#[derive(Clone, PartialEq, Eq)]
pub struct Record {
    direction: Direction,
    rounds: Rounds,
    bytes: Wiped,
}

impl Record {
    /// One that a run is still to write.
    pub(crate) fn blank(direction: Direction, rounds: Rounds) -> Record {
        Record { direction, rounds, bytes: Wiped::zeros(16 * direction.states(rounds)) }
    }

    pub(crate) fn as_bytes_mut(&mut self) -> &mut [u8] {
        &mut self.bytes
    }

    /// The states, one after the other: 816, 976 or 1,136 bytes of an encryption, 976, 1,168 or 1,360 of a decryption.
    pub fn as_bytes(&self) -> &[u8] {
        &self.bytes
    }

    /// Which way the run went.
    pub fn direction(&self) -> Direction {
        self.direction
    }

    /// How many rounds it had.
    pub fn rounds(&self) -> Rounds {
        self.rounds
    }

    /// State n, from 0 on. Where there is none, it panics.
    pub fn state(&self, n: usize) -> &Block {
        self.bytes[16 * n..16 * n + 16].try_into().expect("sixteen bytes")
    }

    /// All states with their points.
    pub fn states(&self) -> impl Iterator<Item = (Point, &Block)> {
        self.direction.points(self.rounds).map(|point| (point, self.state(point.number())))
    }
}

impl AsRef<[u8]> for Record {
    fn as_ref(&self) -> &[u8] {
        &self.bytes
    }
}

/// Which way the run went, and none of its bytes.
impl fmt::Debug for Record {
    fn fmt(&self, f: &mut fmt::Formatter) -> fmt::Result {
        f.debug_struct("Record").field("direction", &self.direction).finish_non_exhaustive()
    }
}

#[cfg(test)]
mod tests;
