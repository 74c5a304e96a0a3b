//! The points of a run, and what is done up to each.

use super::Direction;
use crate::key::Rounds;
use crate::masks::Step;
use crate::offsets::Offsets;
use std::fmt;

/// What has just been done at a point. A plain run has the same points: it covers, compensates, corrects, restores and uncovers
/// nothing.
#[derive(Clone, Copy, Debug, PartialEq, Eq, PartialOrd, Ord, Hash)]
pub enum Stage {
    /// The block is there, under its first mask.
    Block,
    /// A round key was added.
    Key,
    /// The boxes were looked up.
    Boxes,
    /// The rows were shifted.
    ShiftRows,
    /// The columns were mixed.
    MixColumns,
    /// The compensation was added.
    Compensation,
    /// The rows were shifted back.
    InvShiftRows,
    /// The mask was corrected behind that.
    Correction,
    /// The inverse boxes were looked up.
    InverseBoxes,
    /// The columns were mixed back.
    InvMixColumns,
    /// The mask was restored behind that.
    Restoration,
    /// The last mask was taken away.
    Uncovering,
}

impl Stage {
    fn name(self) -> &'static str {
        match self {
            Stage::Block => "block",
            Stage::Key => "key",
            Stage::Boxes => "boxes",
            Stage::ShiftRows => "ShiftRows",
            Stage::MixColumns => "MixColumns",
            Stage::Compensation => "compensation",
            Stage::InvShiftRows => "InvShiftRows",
            Stage::Correction => "correction",
            Stage::InverseBoxes => "inverse boxes",
            Stage::InvMixColumns => "InvMixColumns",
            Stage::Restoration => "restoration",
            Stage::Uncovering => "uncovering",
        }
    }
}

/// Its name.
///
/// ```
/// use slipgrease::Stage;
///
/// assert_eq!([Stage::InverseBoxes, Stage::Uncovering].map(|stage| stage.to_string()), ["inverse boxes", "uncovering"]);
/// ```
impl fmt::Display for Stage {
    fn fmt(&self, f: &mut fmt::Formatter) -> fmt::Result {
        f.pad(self.name())
    }
}

/// One of the points of a run. Those of an encryption come before those of a decryption, those of fewer rounds before those of more,
/// and each run's in their order.
///
/// ```
/// use slipgrease::{Direction, Offset, Offsets, Point, Rounds, Step};
///
/// let (offset, step) = (Offset::new(15).unwrap(), Step::new(5).unwrap());
/// let sixteen = Offsets::new([15; 16]).unwrap();
/// let points: Vec<Point> = Direction::Encryption.points(Rounds::Fourteen).collect();
/// assert_eq!(points.len(), 71);
/// assert_eq!(points[4].to_string(), "MixColumns 0");
/// assert_eq!(points[4].mask(offset, Step::ONE), "MixColumns(ShiftRows(Mask(0)))");
/// assert_eq!(points[4].mask(offset, step), "MixColumns(ShiftRows(Mask(4)))");
/// assert_eq!(points[4].mask(sixteen, step), "MixColumns(ShiftRows(Mask(o+5)))");
/// assert_eq!(points[69].to_string(), "key 14");
///
/// let points: Vec<Point> = Direction::Decryption.points(Rounds::Ten).collect();
/// assert_eq!(points.len(), 61);
/// assert_eq!((points[1].to_string(), points[59].to_string()), ("key 10".to_string(), "key 0".to_string()));
/// assert_eq!(points[6].to_string(), "InvMixColumns 0");
/// assert_eq!(points[6].mask(offset, step), "InvMixColumns(Mask(4))");
/// ```
#[derive(Clone, Copy, Debug, PartialEq, Eq, PartialOrd, Ord, Hash)]
pub struct Point {
    direction: Direction,
    rounds: Rounds,
    number: usize,
}

impl Point {
    pub(super) fn new(direction: Direction, rounds: Rounds, number: usize) -> Point {
        Point { direction, rounds, number }
    }

    /// Its place in the order, from 0 on.
    pub fn number(self) -> usize {
        self.number
    }

    /// The round that it belongs to, from 0 on: five points to a round behind the covered block, and in a decryption six behind the
    /// first key.
    pub fn round(self) -> usize {
        match self.direction {
            Direction::Encryption => self.number.saturating_sub(1) / 5,
            Direction::Decryption => self.number.saturating_sub(2) / 6,
        }
    }

    /// Whether its round begins with it.
    pub fn begins_round(self) -> bool {
        match self.direction {
            Direction::Encryption => self.number % 5 == 1,
            Direction::Decryption => self.number % 6 == 2,
        }
    }

    /// Whether the last round key of the schedule has just been added, with which an encryption ends and a decryption begins.
    fn has_last_key(self) -> bool {
        match self.direction {
            Direction::Encryption => self.number + 2 == self.direction.states(self.rounds),
            Direction::Decryption => self.number == 1,
        }
    }

    /// What has just been done.
    pub fn stage(self) -> Stage {
        use Stage::*;
        match (self.direction, self.number) {
            (_, 0) => Block,
            _ if self.has_last_key() => Key,
            (direction, n) if n + 1 == direction.states(self.rounds) => Uncovering,
            (Direction::Encryption, n) => [Key, Boxes, ShiftRows, MixColumns, Compensation][(n - 1) % 5],
            (Direction::Decryption, n) => [InvShiftRows, Correction, InverseBoxes, Key, InvMixColumns, Restoration][(n - 2) % 6],
        }
    }

    /// The number of the round key that has just been added, if one has.
    pub fn key(self) -> Option<usize> {
        match (self.stage(), self.direction) {
            (Stage::Key, _) if self.has_last_key() => Some(self.rounds.number()),
            (Stage::Key, Direction::Encryption) => Some(self.round()),
            (Stage::Key, Direction::Decryption) => Some(self.rounds.number() - 1 - self.round()),
            _ => None,
        }
    }

    /// The name of what has just been done, and at the end of what has come of it.
    pub fn name(self) -> &'static str {
        match (self.stage(), self.direction) {
            (Stage::Uncovering, Direction::Encryption) => "ciphertext",
            (Stage::Uncovering, Direction::Decryption) => "plaintext",
            (stage, _) => stage.name(),
        }
    }

    /// The mask that lies over the state here in a masked run at offsets and with a step, as the rules name it: by its label at those
    /// that one offset stands for, as Mask(7), and at any other offsets o by how far it is on from these, as Mask(o+4).
    pub fn mask(self, offsets: impl Into<Offsets>, step: Step) -> String {
        let one = offsets.into().as_one();
        let mask = |rounds: usize| match (one, usize::from(step.number()) * rounds % 16) {
            (Some(offset), on) => format!("Mask({})", (usize::from(offset.number()) + on) % 16),
            (None, 0) => "Mask(o)".to_string(),
            (None, on) => format!("Mask(o+{on})"),
        };
        let [before, after] = [self.round(), self.round() + 1].map(mask);
        match self.stage() {
            Stage::Key => match (self.direction, self.has_last_key()) {
                (Direction::Encryption, true) => format!("ShiftRows({after})"),
                (Direction::Encryption, false) | (Direction::Decryption, true) => before,
                (Direction::Decryption, false) => after,
            },
            Stage::Block | Stage::Correction => before,
            Stage::Boxes | Stage::Compensation | Stage::InverseBoxes | Stage::Restoration => after,
            Stage::ShiftRows => format!("ShiftRows({after})"),
            Stage::MixColumns => format!("MixColumns(ShiftRows({after}))"),
            Stage::InvShiftRows => format!("InvShiftRows({before})"),
            Stage::InvMixColumns => format!("InvMixColumns({after})"),
            Stage::Uncovering => "none".to_string(),
        }
    }
}

/// Its name, with the number of the round, or of the round key.
impl fmt::Display for Point {
    fn fmt(&self, f: &mut fmt::Formatter) -> fmt::Result {
        match self.stage() {
            Stage::Block | Stage::Uncovering => f.pad(self.name()),
            _ => f.pad(&format!("{} {}", self.name(), self.key().unwrap_or(self.round()))),
        }
    }
}
