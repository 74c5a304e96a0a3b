//! What a call answers beside what it writes.

use crate::random::Random;

/// A reply number, and the value of a call that gives one.
#[derive(Clone, Copy, Debug, PartialEq)]
pub struct Answer {
    pub number: u8,
    pub value: u8,
}

impl Answer {
    /// Changes one bit.
    pub fn spoil(&mut self, random: &mut Random) {
        let bit = 1 << random.below(8);
        match random.below(2) {
            0 => self.number ^= bit,
            _ => self.value ^= bit,
        }
    }
}

pub fn number(number: u8) -> Answer {
    Answer { number, value: 0 }
}

pub fn value(value: u8) -> Answer {
    Answer { number: 0, value }
}

/// How C is given both: number * 256 + value.
pub fn packed(both: u16) -> Answer {
    Answer { number: (both >> 8) as u8, value: both as u8 }
}
