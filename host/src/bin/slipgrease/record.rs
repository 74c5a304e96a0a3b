//! The record of a run: plain or masked, alone, beside a second run or beside a receiver's dump, as text, JSON or a picture.

mod compare;
mod cover;
mod dump;
mod json;
mod run;
mod summary;

pub use compare::{Kind, Pair};
pub use run::Run;
pub use summary::sentences;

use crate::cipher::{Keyed, Masking};
use crate::fault::Fault;
use crate::svg;
use crate::table;
use crate::words::{Given, GivenOffsets, Number, Words};
use crate::written;
use run::Asked;
use slipgrease::Direction;
use std::ffi::OsStr;
use std::io::Write;

/// Where two runs differ, or a run and a dump, the answer is no.
pub fn record(words: &mut Words, out: &mut dyn Write) -> Result<(), Fault> {
    let direction = if words.flag("decrypt")? { Direction::Decryption } else { Direction::Encryption };
    let (json, picture, dump) = (words.flag("json")?, words.file_of("svg")?, words.file_of("against")?);
    if dump.as_deref() == Some(OsStr::new("-")) {
        words.input().hold("the dump")?;
    }
    let (offsets, step, masks) = (words.offsets_of("offset")?, words.number_of("step")?, words.bytes_of("masks")?);
    let (offsets2, step2, masks2) = (words.offsets_of("offset2")?, words.number_of("step2")?, words.bytes_of("masks2")?);
    let (key2, block2) = (words.bytes_of("key2")?, words.bytes_of("block2")?);
    let (keyed, block) = Keyed::read(words, |words| words.bytes("block"))?;

    let of_second = [
        ("--offset2", offsets2.is_some()),
        ("--step2", step2.is_some()),
        ("--masks2", masks2.is_some()),
        ("--key2", key2.is_some()),
        ("--block2", block2.is_some()),
    ];
    let two = of_second.iter().find(|(_, is_given)| *is_given).map(|(option, _)| option);
    if let (Some(option), Some(_)) = (two, &dump) {
        return Err(Fault::caller(format!(
            "--against and {option} cannot be given together: a run is put beside a dump or beside a second run"
        )));
    }
    if json && picture.as_deref() == Some(OsStr::new("-")) {
        return Err(Fault::caller("--json and --svg - cannot be given together: standard output takes one of them"));
    }
    // What the second run is not given it has from the first.
    let lent = |offsets: &Option<GivenOffsets>| offsets.as_ref().map(GivenOffsets::bytes);
    let has_its_own = offsets2.is_some() && lent(&offsets2) != lent(&offsets);
    let second = Asked {
        direction,
        keyed: key2.map_or(Ok(keyed.clone()), Keyed::expand)?,
        block: block2.unwrap_or_else(|| block.clone()),
        offsets_called: if has_its_own { "o2" } else { "o" },
        masking: masking(offsets2.or_else(|| offsets.clone()), step2.or_else(|| step.clone()), masks2.or_else(|| masks.clone()))?,
    };
    let first = Asked { direction, keyed, block, offsets_called: "o", masking: masking(offsets, step, masks)? };
    let first = Run::new(first)?;
    let second = if two.is_some() { Some(Run::new(second)?) } else { None };
    if let Some(second) = &second {
        of_one_length(&first, second)?;
    }
    let pair = match (&second, dump) {
        (Some(second), _) => Some(Pair::of_runs(&first, second)),
        (None, Some(file)) => Some(beside_dump(&first, &file, words)?),
        (None, None) => None,
    };

    if let Some(file) = &picture {
        draw(file, &first, pair.as_ref(), out, words)?;
    }
    match (&picture, &pair) {
        _ if json => out.write_all(json::record(&first, second.as_ref(), pair.as_ref()).as_bytes())?,
        (None, pair) => out.write_all(table::table(&first, pair.as_ref()).as_bytes())?,
        (Some(file), Some(pair)) if file != "-" => writeln!(out, "{}", sentences(pair).join("\n"))?,
        (Some(_), _) => (),
    }
    match pair.and_then(|pair| pair.first()) {
        Some(_) => Err(Fault::no()),
        None => Ok(()),
    }
}

/// Runs with keys of other lengths have other rounds, so that their states do not stand side by side.
fn of_one_length(first: &Run, second: &Run) -> Result<(), Fault> {
    let [expected, found] = [first, second].map(|run| run.rounds().key_bytes());
    match found == expected {
        true => Ok(()),
        false => Err(Fault::caller(format!(
            "--key2: {found} bytes, and {expected} are expected: two runs stand side by side where their keys are equally long"
        ))),
    }
}

/// The run and the dump in a file, or on standard input.
fn beside_dump(run: &Run, file: &OsStr, words: &mut Words) -> Result<Pair, Fault> {
    let mut opened;
    let input = if file == "-" {
        words.input()
    } else {
        opened = words.open(file)?;
        &mut opened
    };
    let states = dump::read(input, run.direction, run.rounds())?;
    Ok(Pair::with_dump(run, &input.name, states))
}

/// To a file that is its owner's alone and none of those that were read, or to standard output.
fn draw(file: &OsStr, first: &Run, pair: Option<&Pair>, out: &mut dyn Write, words: &Words) -> Result<(), Fault> {
    match file == "-" {
        true => Ok(out.write_all(svg::record(first, pair, false).as_bytes())?),
        false => written::write_private(file, &svg::record(first, pair, true), &words.files_read()?),
    }
}

fn masking(offsets: Option<GivenOffsets>, step: Option<Number>, masks: Option<Given>) -> Result<Option<Masking>, Fault> {
    let without_offset = |what| Err(Fault::caller(format!("{what} and --offset is missing: a run without an offset is plain")));
    match (offsets, &step, &masks) {
        (Some(offsets), ..) => Ok(Some(Masking { masks, offsets, step })),
        (None, _, Some(_)) => without_offset("masks are given"),
        (None, Some(_), None) => without_offset("a step is given"),
        (None, None, None) => Ok(None),
    }
}
