//! Key wrap of RFC 3394: key data wrapped under a wrapping key, and a wrapped key opened.

use crate::cipher::{explained, Keyed};
use crate::fault::Fault;
use crate::hex::digits;
use crate::shown::count;
use crate::words::{Given, Number, Words};
use slipgrease::{Refusal, Schedule};
use std::io::Write;

pub fn wrap(words: &mut Words, out: &mut dyn Write) -> Result<(), Fault> {
    let asked = Asked::read(words, "key data")?;
    let wrapped = asked.made(asked.given.bytes.len() + 8, |schedule, key_data, wrapped, offset| match offset {
        None => slipgrease::wrap(schedule, key_data, wrapped),
        Some(offset) => slipgrease::wrap_masked(schedule, key_data, wrapped, offset),
    });
    print(out, wrapped.map_err(|refusal| asked.refused(refusal))?)
}

pub fn unwrap(words: &mut Words, out: &mut dyn Write) -> Result<(), Fault> {
    let asked = Asked::read(words, "wrapped key")?;
    let key_data = asked.made(asked.given.bytes.len().saturating_sub(8), |schedule, wrapped, key_data, offset| match offset {
        None => slipgrease::unwrap(schedule, wrapped, key_data),
        Some(offset) => slipgrease::unwrap_masked(schedule, wrapped, key_data, offset),
    });
    print(out, key_data.map_err(|refusal| asked.not_opened(refusal))?)
}

/// All bytes on one line, so that another command takes them as one word.
fn print(out: &mut dyn Write, made: Vec<u8>) -> Result<(), Fault> {
    writeln!(out, "{}", digits(&made))?;
    Ok(())
}

/// What both ways are given. With an offset the module's engine is meant, and without one the rack's.
struct Asked {
    offset: Option<Number>,
    keyed: Keyed,
    given: Given,
}

/// Lent are the schedule, what is given, what is made of it, and the offset.
type Call = fn(&[u8], &[u8], &mut [u8], Option<u8>) -> Result<(), Refusal>;

impl Asked {
    fn read(words: &mut Words, what: &'static str) -> Result<Asked, Fault> {
        let offset = words.number_of("offset")?;
        let (keyed, given) = Keyed::read(words, |words| words.some_bytes(what))?;
        Ok(Asked { offset, keyed, given })
    }

    fn made(&self, length: usize, call: Call) -> Result<Vec<u8>, Refusal> {
        let mut made = vec![0; length];
        let offset = self.offset.as_ref().map(|offset| offset.value);
        call(&self.keyed.bytes, &self.given.bytes, &mut made, offset).map(|()| made)
    }

    fn refused(&self, refusal: Refusal) -> Fault {
        match (refusal, &self.offset) {
            // The library wraps under 32 bytes alone.
            (Refusal::ScheduleLength, _) => {
                let said = "a wrapping key is 32 bytes, and its schedule 240";
                Fault::refused_as(refusal, &self.keyed.given.seen(), said)
            }
            (Refusal::OffsetRange, Some(offset)) => offset.refused(refusal),
            (Refusal::KeyDataLength, _) => self.given.refused(refusal),
            _ => explained(refusal, &self.keyed, &self.given, None),
        }
    }

    /// The same of a wrapped key: how much key data it would have had, or what its register is.
    fn not_opened(&self, refusal: Refusal) -> Fault {
        let Given { what, place, bytes } = &self.given;
        match refusal {
            Refusal::KeyDataLength => {
                let (length, rest) = (count(bytes.len(), "byte"), bytes.len().saturating_sub(8));
                Fault::refused(refusal, &format!("{what}, {place}: {length}, so {rest} of key data"))
            }
            Refusal::Integrity => {
                let schedule = Schedule::try_from(&self.keyed.bytes[..]).expect("the library has taken it");
                let found = format!("the register is {:016x}, not a6a6a6a6a6a6a6a6", register(&schedule, bytes));
                Fault::refused_as(refusal, &format!("{what}, {place}: integrity"), &found)
            }
            _ => self.refused(refusal),
        }
    }
}

/// The register that unwrapping recovers, A in RFC 3394, 2.2.2. The library hands out nothing of a wrapped key that it refuses, and
/// whoever asks the partner what went wrong needs this; so it is worked out here by the library's decryption of single blocks.
fn register(schedule: &Schedule, wrapped: &[u8]) -> u64 {
    let of_eight = |value: &[u8]| u64::from_be_bytes(value.try_into().expect("eight bytes"));
    let mut register = of_eight(&wrapped[..8]);
    let mut values: Vec<u64> = wrapped[8..].chunks_exact(8).map(of_eight).collect();
    let n = values.len();
    for t in (1..=6 * n).rev() {
        let value = &mut values[(t - 1) % n];
        let block = u128::from(register ^ t as u64) << 64 | u128::from(*value);
        let opened = u128::from_be_bytes(schedule.decrypt(&block.to_be_bytes()));
        (register, *value) = ((opened >> 64) as u64, opened as u64);
    }
    register
}
