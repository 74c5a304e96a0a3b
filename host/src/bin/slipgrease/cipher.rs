//! The commands that make blocks, and the key schedule.

use crate::fault::Fault;
use crate::hex::digits;
use crate::shown::{brief, count};
use crate::words::{Given, GivenOffsets, Number, Words};
use slipgrease::{Refusal, Schedule};
use std::io::Write;

/// The option for a key that is not to be seen among the arguments.
const KEY_FILE: &str = "key-file";

/// A schedule: that of a key, an argument or in a file, or the one that --schedule gives, which any 176, 208 or 240 bytes are.
#[derive(Clone)]
pub struct Keyed {
    pub given: Given,
    pub bytes: Vec<u8>,
}

impl Keyed {
    /// The schedule, and what else the command takes. That is read before a key is expanded: where both are sought on standard
    /// input, this is to be told, and not how long they are together.
    pub fn read<T>(words: &mut Words, others: impl FnOnce(&mut Words) -> Result<T, Fault>) -> Result<(Keyed, T), Fault> {
        let file = words.bytes_in(KEY_FILE, "key")?;
        let (given, is_key) = match (words.bytes_of("schedule")?, file) {
            (Some(schedule), None) => (schedule, false),
            (Some(_), Some(_)) => {
                return Err(Fault::caller("--schedule and --key-file are both given, and one of them is expected"))
            }
            (None, Some(key)) => (key, true),
            (None, None) => (words.bytes("key")?, true),
        };
        let others = others(words)?;
        words.end()?;
        let keyed = if is_key { Keyed::expand(given)? } else { Keyed { bytes: given.bytes.clone(), given } };
        Ok((keyed, others))
    }

    pub fn expand(given: Given) -> Result<Keyed, Fault> {
        match Schedule::expand_slice(&given.bytes) {
            Ok(schedule) => Ok(Keyed { given, bytes: schedule.as_bytes().to_vec() }),
            Err(refusal) => Err(given.refused(refusal)),
        }
    }
}

/// What a masked run is run with.
#[derive(Clone)]
pub struct Masking {
    pub masks: Option<Given>,
    pub offsets: GivenOffsets,
    pub step: Option<Number>,
}

/// Says of a refusal which of the words it is about.
pub fn explained(refusal: Refusal, keyed: &Keyed, block: &Given, masking: Option<&Masking>) -> Fault {
    match (refusal, masking) {
        (Refusal::ScheduleLength, _) => keyed.given.refused(refusal),
        (Refusal::InputLength, _) => block.refused(refusal),
        (Refusal::MasksLength, Some(Masking { masks: Some(masks), .. })) => masks.refused(refusal),
        (Refusal::OffsetPerByte | Refusal::OffsetRange, Some(masking)) => masking.offsets.refused(refusal),
        (Refusal::StepWrong, Some(Masking { step: Some(step), .. })) => step.refused(refusal),
        _ => Fault::refused(refusal, "the library"),
    }
}

/// Eleven, thirteen or fifteen round keys, one to a line.
pub fn expand(words: &mut Words, out: &mut dyn Write) -> Result<(), Fault> {
    let file = words.bytes_in(KEY_FILE, "key")?;
    let key = file.map_or_else(|| words.bytes("key"), Ok)?;
    words.end()?;
    for round_key in Keyed::expand(key)?.bytes.chunks(16) {
        writeln!(out, "{}", digits(round_key))?;
    }
    Ok(())
}

pub fn encrypt(words: &mut Words, out: &mut dyn Write) -> Result<(), Fault> {
    one_block(words, out, slipgrease::encrypt)
}

pub fn decrypt(words: &mut Words, out: &mut dyn Write) -> Result<(), Fault> {
    one_block(words, out, slipgrease::decrypt)
}

type Cipher = fn(&[u8], &[u8], &mut [u8]) -> Result<(), Refusal>;

fn one_block(words: &mut Words, out: &mut dyn Write, cipher: Cipher) -> Result<(), Fault> {
    let (keyed, block) = Keyed::read(words, |words| words.bytes("block"))?;
    let mut output = [0; 16];
    cipher(&keyed.bytes, &block.bytes, &mut output).map_err(|refusal| explained(refusal, &keyed, &block, None))?;
    writeln!(out, "{}", digits(&output))?;
    Ok(())
}

/// Masked runs take the standard form alone, and are still told so.
const FORM: u8 = 0;

/// The module's encryption, at the offsets and with the step that the caller names.
pub fn mask(words: &mut Words, out: &mut dyn Write) -> Result<(), Fault> {
    one_masked_block(words, out, |schedule, block, output, masks, offsets, step| match masks {
        None => slipgrease::encrypt_published(schedule, block, output, offsets, step, FORM),
        Some(masks) => slipgrease::encrypt_masked(schedule, block, output, masks, offsets, step, FORM),
    })
}

/// Its decryption, likewise.
pub fn unmask(words: &mut Words, out: &mut dyn Write) -> Result<(), Fault> {
    one_masked_block(words, out, |schedule, block, output, masks, offsets, step| match masks {
        None => slipgrease::decrypt_published(schedule, block, output, offsets, step),
        Some(masks) => slipgrease::decrypt_masked(schedule, block, output, masks, offsets, step),
    })
}

/// Without masks it has the published ones.
type MaskedCipher = fn(&[u8], &[u8], &mut [u8], Option<&[u8]>, &[u8], u8) -> Result<(), Refusal>;

fn one_masked_block(words: &mut Words, out: &mut dyn Write, cipher: MaskedCipher) -> Result<(), Fault> {
    let offsets = words.offsets_of("offset")?;
    let step = words.number_of("step")?;
    let masks = words.bytes_of("masks")?;
    let (keyed, block) = Keyed::read(words, |words| words.bytes("block"))?;
    let offsets =
        offsets.ok_or_else(|| Fault::caller("--offset is missing: the run's offset, 0 to 15, is the caller's to choose"))?;
    let masking = Masking { masks, offsets, step };
    let (offsets, step) = (masking.offsets.bytes(), Number::step(&masking.step));
    let masks = masking.masks.as_ref().map(|masks| &masks.bytes[..]);
    let mut output = [0; 16];
    cipher(&keyed.bytes, &block.bytes, &mut output, masks, &offsets, step)
        .map_err(|refusal| explained(refusal, &keyed, &block, Some(&masking)))?;
    writeln!(out, "{}", digits(&output))?;
    Ok(())
}

/// The module's encryption of many blocks in one call, a block to a line.
pub fn blocks(words: &mut Words, out: &mut dyn Write) -> Result<(), Fault> {
    let offsets = words.numbers_of("offsets")?;
    let step = words.number_of("step")?;
    let (keyed, blocks) = Keyed::read(words, |words| words.all_bytes("blocks"))?;
    let offsets = offsets.ok_or_else(|| {
        Fault::caller("--offsets is missing: a number for each block, 0 to 15, that is the caller's to choose, as in 3,15,7")
    })?;
    let values: Vec<u8> = offsets.iter().map(|offset| offset.value).collect();
    let mut output = vec![0; blocks.bytes.len()];
    let made = slipgrease::encrypt_blocks(&keyed.bytes, &blocks.bytes, &mut output, &values, Number::step(&step), FORM);
    made.map_err(|refusal| match (refusal, &step) {
        (Refusal::OffsetsLength, _) => {
            let (offsets, blocks) = (count(offsets.len(), "offset"), count(blocks.bytes.len() / 16, "block"));
            Fault::refused(refusal, &format!("--offsets: {offsets} for {blocks}"))
        }
        (Refusal::OffsetRange, _) => wrong_offset(&offsets),
        (Refusal::StepWrong, Some(step)) => step.refused(refusal),
        (Refusal::InputLength, _) => Fault::refused_as(refusal, &blocks.seen(), "a block is 16 bytes, and at most 256 are taken"),
        _ => explained(refusal, &keyed, &blocks, None),
    })?;
    for block in output.chunks(16) {
        writeln!(out, "{}", digits(block))?;
    }
    Ok(())
}

/// Names the first offset that is above 15.
fn wrong_offset(offsets: &[Number]) -> Fault {
    let (block, offset) = offsets.iter().enumerate().find(|(_, offset)| offset.value > 15).expect("one is above 15");
    Fault::refused(Refusal::OffsetRange, &format!("--offsets, for block {}: {}", block + 1, brief(&offset.word)))
}
