//! Bytes and numbers, each with what is needed to say what is wrong with it.

use crate::fault::Fault;
use crate::hex;
use crate::shown::{brief, count};
use slipgrease::{Offset, Offsets, Refusal};
use std::ffi::OsString;

/// Bytes, what they are called and where they were read.
#[derive(Clone)]
pub struct Given {
    pub what: &'static str,
    pub place: String,
    pub bytes: Vec<u8>,
}

impl Given {
    /// The length that was given, and where.
    pub fn seen(&self) -> String {
        format!("{}, {}: {}", self.what, self.place, count(self.bytes.len(), "byte"))
    }

    /// Says it in front of what the library says of it.
    pub fn refused(&self, refusal: Refusal) -> Fault {
        Fault::refused(refusal, &self.seen())
    }
}

/// A number, and the word that it was given as.
#[derive(Clone)]
pub struct Number {
    pub what: &'static str,
    pub word: String,
    pub value: u8,
}

impl Number {
    /// The step that was given, and 1 where none was.
    pub fn step(given: &Option<Number>) -> u8 {
        given.as_ref().map_or(1, |step| step.value)
    }

    pub fn refused(&self, refusal: Refusal) -> Fault {
        Fault::refused(refusal, &format!("--{} {}", self.what, brief(&self.word)))
    }
}

/// The offsets of a run, and the word that they were given as: one number, or one for each byte.
#[derive(Clone)]
pub struct GivenOffsets {
    pub what: &'static str,
    pub word: String,
    pub numbers: Vec<Number>,
}

impl GivenOffsets {
    /// What the library is lent. It judges how many there are and how great; so one alone that is too great goes to it sixteen times.
    pub fn bytes(&self) -> Vec<u8> {
        match self.numbers[..] {
            [Number { value, .. }] => {
                Offset::new(value).map_or(vec![value; 16], |offset| Offsets::one(offset).as_bytes().to_vec())
            }
            ref numbers => numbers.iter().map(|number| number.value).collect(),
        }
    }

    pub fn refused(&self, refusal: Refusal) -> Fault {
        let (option, word) = (format!("--{}", self.what), brief(&self.word));
        let too_great = self.numbers.iter().enumerate().find(|(_, number)| number.value > 15);
        let seen = match (refusal, too_great) {
            (Refusal::OffsetPerByte, _) => format!("{option} {word}: {}", count(self.numbers.len(), "offset")),
            (Refusal::OffsetRange, Some((byte, number))) if self.numbers.len() > 1 => {
                format!("{option}, for byte {byte}: {}", brief(&number.word))
            }
            _ => format!("{option} {word}"),
        };
        Fault::refused(refusal, &seen)
    }
}

/// The bytes of a word.
pub fn given(what: &'static str, place: String, word: &str) -> Result<Given, Fault> {
    match hex::bytes(word) {
        Ok(bytes) => Ok(Given { what, place, bytes }),
        Err(wrong) => Err(Fault::caller(format!("{what}, {place}: {wrong}"))),
    }
}

/// A word that is no name of a file.
pub fn text(word: OsString, place: &str) -> Result<String, Fault> {
    word.into_string().map_err(|_| Fault::caller(format!("{place}: not in UTF-8")))
}

/// A decimal number. One that no byte holds goes on as 255, which is as much out of range.
pub fn number(word: &str) -> Option<u8> {
    match !word.is_empty() && word.bytes().all(|byte| byte.is_ascii_digit()) {
        true => Some(word.parse().unwrap_or(255)),
        false => None,
    }
}
